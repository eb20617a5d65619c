//! One step: a term is a value, or an evaluation context around the node whose turn it is.

use crate::class::Class;
use crate::node::{Node, Tree};
use crate::rules::{ml_rule, scheme_rule, Rule};
use crate::tree::{Ml, Scheme, Type};
use std::ops::Range;
use std::rc::Rc;

/// A node that evaluation goes through, and the part that it goes into.
pub struct Frame {
    pub node: Tree,
    pub part: usize,
}

/// A term that is no value: the way from its root, and the node whose turn it is.
pub struct Turn {
    pub context: Vec<Frame>,
    pub node: Tree,
}

impl Turn {
    /// How many words of the whole term come before the node.
    pub fn place(&self) -> usize {
        let before = |frame: &Frame| {
            let parts = frame.node.node().parts();
            1 + parts[..frame.part].iter().flatten().map(|part| part.size()).sum::<usize>()
        };
        self.context.iter().map(before).sum()
    }

    /// What a step on the node is counted as.
    pub fn class(&self) -> Class {
        Class::of(self.node.node())
    }

    /// The step on the node.
    pub fn step(&self) -> Step {
        if let Some(code) = raised(&self.node) {
            return Step::Raised(code);
        }
        match contract(&self.node) {
            Some((rule, replaced)) => Step::Next(rule, self.with(replaced)),
            None => Step::Stuck,
        }
    }

    /// The whole term with another in the node's place.
    pub fn with(&self, replaced: Tree) -> Rc<Ml> {
        match self.context.iter().rev().fold(replaced, plug) {
            Tree::Ml(term) => term,
            _ => unreachable!("a term of ML stays one"),
        }
    }
}

/// A reduction: the step that it makes on the node whose turn it is. Document 01's with the requests of document 02 is
/// `Turn::step`.
pub type Reduction = fn(&Turn) -> Step;

pub enum Step {
    Value,
    /// It is a wrong's turn; the code.
    Raised(u32),
    Next(Rule, Rc<Ml>),
    /// No rule fits: never so in a term that has a type.
    Stuck,
}

/// The node whose turn it is, or none for a value: from the root into the first part that evaluation takes and that
/// is no value.
pub fn turn(term: &Rc<Ml>) -> Option<Turn> {
    let mut context = Vec::new();
    let node = enter(Node::Ml(term), &mut context)?;
    Some(Turn { context, node })
}

fn enter(node: Node<'_>, context: &mut Vec<Frame>) -> Option<Tree> {
    let parts = node.parts();
    for part in evaluated(node) {
        context.push(Frame { node: node.owned(), part });
        if let Some(found) = parts[part].and_then(|inner| enter(inner, context)) {
            return Some(found);
        }
        context.pop();
    }
    if is_value_node(node) {
        None
    } else {
        Some(node.owned())
    }
}

/// The parts that evaluation takes, in its order.
fn evaluated(node: Node<'_>) -> Range<usize> {
    match node {
        Node::Type(_) => 0..0,
        Node::Ml(e) => match **e {
            Ml::Variable(_) | Ml::Number(_) | Ml::Lambda(..) | Ml::Nil(_) | Ml::Wrong(..) => 0..0,
            Ml::Fix(_) | Ml::If0(..) | Ml::Hd(_) | Ml::Tl(_) | Ml::Null(_) => 0..1,
            Ml::Application(..) | Ml::Add(..) | Ml::Subtract(..) | Ml::Cons(..) => 0..2,
            Ml::Ms(..) => 1..2,
        },
        Node::Scheme(e) => match **e {
            Scheme::Variable(_) | Scheme::Number(_) | Scheme::Lambda(_) | Scheme::Nil | Scheme::Wrong(_) => 0..0,
            Scheme::If0(..) | Scheme::Hd(_) | Scheme::Tl(_) | Scheme::Test(..) => 0..1,
            Scheme::Application(..) | Scheme::Add(..) | Scheme::Subtract(..) | Scheme::Cons(..) => 0..2,
            Scheme::Sm(..) => 1..2,
        },
    }
}

/// Whether a node is a value, the parts that evaluation takes being values.
fn is_value_node(node: Node<'_>) -> bool {
    match node {
        Node::Type(_) => true,
        Node::Ml(e) => match &**e {
            Ml::Ms(t, _) => matches!(**t, Type::Lump(_)),
            other => matches!(other, Ml::Lambda(..) | Ml::Number(_) | Ml::Nil(_) | Ml::Cons(..)),
        },
        Node::Scheme(e) => matches!(**e, Scheme::Lambda(_) | Scheme::Number(_) | Scheme::Nil | Scheme::Cons(..)),
    }
}

pub fn step(term: &Rc<Ml>) -> Step {
    turn(term).map_or(Step::Value, |turn| turn.step())
}

fn raised(node: &Tree) -> Option<u32> {
    match node {
        Tree::Ml(e) => match **e {
            Ml::Wrong(code, _) => Some(code),
            _ => None,
        },
        Tree::Scheme(e) => match **e {
            Scheme::Wrong(code) => Some(code),
            _ => None,
        },
        Tree::Type(_) => None,
    }
}

fn contract(node: &Tree) -> Option<(Rule, Tree)> {
    match node {
        Tree::Ml(e) => ml_rule(e).map(|(rule, next)| (rule, Tree::Ml(next))),
        Tree::Scheme(e) => scheme_rule(e).map(|(rule, next)| (rule, Tree::Scheme(next))),
        Tree::Type(_) => None,
    }
}

/// The frame's node with another term for the part that evaluation went into.
fn plug(part: Tree, frame: &Frame) -> Tree {
    match &frame.node {
        Tree::Ml(e) => Tree::Ml(Rc::new(ml_with(e, frame.part, part))),
        Tree::Scheme(e) => Tree::Scheme(Rc::new(scheme_with(e, frame.part, part))),
        Tree::Type(_) => unreachable!("evaluation never enters a type"),
    }
}

fn ml_with(node: &Ml, index: usize, part: Tree) -> Ml {
    match (node, index, part) {
        (Ml::Application(_, b), 0, Tree::Ml(e)) => Ml::Application(e, b.clone()),
        (Ml::Application(a, _), 1, Tree::Ml(e)) => Ml::Application(a.clone(), e),
        (Ml::Fix(_), 0, Tree::Ml(e)) => Ml::Fix(e),
        (Ml::Add(_, b), 0, Tree::Ml(e)) => Ml::Add(e, b.clone()),
        (Ml::Add(a, _), 1, Tree::Ml(e)) => Ml::Add(a.clone(), e),
        (Ml::Subtract(_, b), 0, Tree::Ml(e)) => Ml::Subtract(e, b.clone()),
        (Ml::Subtract(a, _), 1, Tree::Ml(e)) => Ml::Subtract(a.clone(), e),
        (Ml::If0(_, b, c), 0, Tree::Ml(e)) => Ml::If0(e, b.clone(), c.clone()),
        (Ml::Cons(_, b), 0, Tree::Ml(e)) => Ml::Cons(e, b.clone()),
        (Ml::Cons(a, _), 1, Tree::Ml(e)) => Ml::Cons(a.clone(), e),
        (Ml::Hd(_), 0, Tree::Ml(e)) => Ml::Hd(e),
        (Ml::Tl(_), 0, Tree::Ml(e)) => Ml::Tl(e),
        (Ml::Null(_), 0, Tree::Ml(e)) => Ml::Null(e),
        (Ml::Ms(t, _), 1, Tree::Scheme(e)) => Ml::Ms(t.clone(), e),
        _ => unreachable!("a part that evaluation takes, of the same language"),
    }
}

fn scheme_with(node: &Scheme, index: usize, part: Tree) -> Scheme {
    use Scheme::*;
    match (node, index, part) {
        (Application(_, b), 0, Tree::Scheme(e)) => Application(e, b.clone()),
        (Application(a, _), 1, Tree::Scheme(e)) => Application(a.clone(), e),
        (Add(_, b), 0, Tree::Scheme(e)) => Add(e, b.clone()),
        (Add(a, _), 1, Tree::Scheme(e)) => Add(a.clone(), e),
        (Subtract(_, b), 0, Tree::Scheme(e)) => Subtract(e, b.clone()),
        (Subtract(a, _), 1, Tree::Scheme(e)) => Subtract(a.clone(), e),
        (If0(_, b, c), 0, Tree::Scheme(e)) => If0(e, b.clone(), c.clone()),
        (Cons(_, b), 0, Tree::Scheme(e)) => Cons(e, b.clone()),
        (Cons(a, _), 1, Tree::Scheme(e)) => Cons(a.clone(), e),
        (Hd(_), 0, Tree::Scheme(e)) => Hd(e),
        (Tl(_), 0, Tree::Scheme(e)) => Tl(e),
        (Test(test, _), 0, Tree::Scheme(e)) => Test(*test, e),
        (Sm(t, _), 1, Tree::Ml(e)) => Sm(t.clone(), e),
        _ => unreachable!("a part that evaluation takes, of the same language"),
    }
}
