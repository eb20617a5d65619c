//! Where a term fails to have a type, from document 02's request U9: "Refusal 6 carries the lowest-numbered node that has no type,
//! or is not well formed, while all its own parts are in order."

use crate::node::Node;
use crate::tree::{Ml, Scheme, Type};
use crate::typing::{ml_rule, scheme_rule, Lambdas, Mismatch};
use std::collections::HashMap;
use std::rc::Rc;

/// A node that has no type, or is not well formed, while all its own parts are in order: how many words of the term come before
/// it, its kind, the types of an ML node's parts, and why.
#[derive(Clone, Debug, PartialEq, Eq)]
pub struct Untyped {
    pub before: usize,
    pub kind: u32,
    pub parts: Vec<Rc<Type>>,
    pub mismatch: Mismatch,
}

/// The type of a closed term; or if it has none, all nodes of that sort. There is one then, since a node without a type has one
/// in it.
pub fn judge(term: &Rc<Ml>) -> Result<Rc<Type>, Vec<Untyped>> {
    let mut walk = Walk::among(Vec::new());
    walk.ml(term).ok_or(walk.untyped)
}

/// The type of a term among the lambdas around it, if it has one.
pub fn type_among(term: &Rc<Ml>, lambdas: Lambdas) -> Option<Rc<Type>> {
    Walk::among(lambdas).ml(term)
}

/// The types of all ML nodes in a node that have one, by their words counted from the node's own.
pub fn types_within(node: Node<'_>) -> HashMap<usize, Rc<Type>> {
    let mut walk = Walk { typed: Some(HashMap::new()), ..Walk::among(Vec::new()) };
    walk.part(node);
    walk.typed.unwrap_or_default()
}

/// The lowest-numbered of those nodes, if the term has no type.
pub fn untyped(term: &Rc<Ml>) -> Option<Untyped> {
    judge(term).err().and_then(lowest)
}

/// The one of those nodes that stands behind so many words of the term, if it is one of them.
pub fn untyped_at(term: &Rc<Ml>, before: usize) -> Option<Untyped> {
    judge(term).err()?.into_iter().find(|node| node.before == before)
}

/// The lowest-numbered of some nodes.
pub fn lowest(nodes: Vec<Untyped>) -> Option<Untyped> {
    nodes.into_iter().min_by_key(|node| node.before)
}

/// One walk over all the nodes of a term: each is judged when all its parts are.
struct Walk {
    /// Around the node that comes next.
    lambdas: Lambdas,
    /// How many words come before it.
    words: usize,
    untyped: Vec<Untyped>,
    /// The types of the ML nodes so far, where they are asked for.
    typed: Option<HashMap<usize, Rc<Type>>>,
}

impl Walk {
    /// Before a term that stands among lambdas.
    fn among(lambdas: Lambdas) -> Walk {
        Walk { lambdas, words: 0, untyped: Vec::new(), typed: None }
    }

    /// The type of an ML term, if it has one.
    fn ml(&mut self, term: &Rc<Ml>) -> Option<Rc<Type>> {
        let own = match &**term {
            Ml::Lambda(t, _) => Some(Some(t.clone())),
            _ => None,
        };
        let before = self.words;
        let parts = self.parts(Node::Ml(term), own)?;
        let judged = ml_rule(term, &parts, &self.lambdas);
        if let (Some(typed), Ok(found)) = (&mut self.typed, &judged) {
            typed.insert(before, found.clone());
        }
        self.kept(before, Node::Ml(term), parts, judged)
    }

    /// Whether a Scheme term is well formed.
    fn scheme(&mut self, term: &Rc<Scheme>) -> Option<()> {
        let own = matches!(**term, Scheme::Lambda(_)).then_some(None);
        let before = self.words;
        let parts = self.parts(Node::Scheme(term), own)?;
        self.kept(before, Node::Scheme(term), Vec::new(), scheme_rule(term, &parts))
    }

    /// The types of a node's parts, a Scheme term having none, if all of them are in order. Each is judged, whatever becomes of
    /// those before it; a lambda stands around its parts.
    fn parts(&mut self, node: Node<'_>, own: Option<Option<Rc<Type>>>) -> Option<Vec<Rc<Type>>> {
        self.words += 1;
        let around = self.lambdas.len();
        self.lambdas.extend(own);
        let (mut types, mut in_order) = (Vec::new(), true);
        for part in node.parts().into_iter().flatten() {
            match self.part(part) {
                Some(t) => types.extend(t),
                None => in_order = false,
            }
        }
        self.lambdas.truncate(around);
        in_order.then_some(types)
    }

    /// What a part has, if it is in order: a type, or as a Scheme term none.
    fn part(&mut self, part: Node<'_>) -> Option<Option<Rc<Type>>> {
        match part {
            Node::Type(t) => {
                self.words += part.size();
                Some(Some(t.clone()))
            }
            Node::Ml(e) => self.ml(e).map(Some),
            Node::Scheme(e) => self.scheme(e).map(|()| None),
        }
    }

    /// What a rule gives; a node to which it gives nothing is put with the others.
    fn kept<T>(
        &mut self,
        before: usize,
        node: Node<'_>,
        parts: Vec<Rc<Type>>,
        judged: Result<T, Mismatch>,
    ) -> Option<T> {
        let kind = node.word() % 256;
        judged.map_err(|mismatch| self.untyped.push(Untyped { before, kind, parts, mismatch })).ok()
    }
}
