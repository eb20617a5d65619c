//! Document 01's typing: each ML term has at most one type, a Scheme term is only well formed or not. One rule for each kind of
//! node, by what its parts have.

use crate::node::Node;
use crate::tree::{Ml, Scheme, Type};
use crate::untyped::judge;
use std::rc::Rc;

/// The lambdas around a term, the innermost last: an ML lambda's type, or none for a Scheme lambda.
pub type Lambdas = Vec<Option<Rc<Type>>>;

/// Why a node has no type, or is not well formed, although all its own parts are in order. Parts are counted from 0, types too.
#[derive(Clone, Debug, PartialEq, Eq)]
pub enum Mismatch {
    /// A variable has no lambda of its language: refusal 5 comes before.
    Unbound,
    /// A part is to be a function, or a list, and has this type.
    NoFunction(Rc<Type>),
    NoList(Rc<Type>),
    /// A fix of a function whose argument and result have these two types.
    Sides([Rc<Type>; 2]),
    /// A part has another type than is due.
    Another {
        part: usize,
        due: Rc<Type>,
        found: Rc<Type>,
    },
}

impl Mismatch {
    /// The two types that were to be equal, where there are two: the one due and the one found.
    pub fn unequal(&self) -> Option<[Rc<Type>; 2]> {
        match self {
            Mismatch::Another { due, found, .. } => Some([due.clone(), found.clone()]),
            Mismatch::Sides(sides) => Some(sides.clone()),
            _ => None,
        }
    }
}

/// The type of a closed term, if it has one.
pub fn type_of(term: &Rc<Ml>) -> Option<Rc<Type>> {
    judge(term).ok()
}

/// The first word in which two types differ, counted from 0, or none if they are equal: "Types are equal when their words are."
pub fn difference(one: &Rc<Type>, other: &Rc<Type>) -> Option<usize> {
    let [one, other] = [one, other].map(|t| Node::Type(t).words());
    one.iter().zip(&other).position(|(one, other)| one != other)
}

/// The type of an ML node among the lambdas around it, by the types of its parts, those that are types themselves included; the
/// Scheme term of an ms is well formed.
pub fn ml_rule(node: &Ml, parts: &[Rc<Type>], lambdas: &Lambdas) -> Result<Rc<Type>, Mismatch> {
    match (node, parts) {
        (Ml::Variable(n), _) => {
            let lambda = lambdas.iter().rev().nth(*n as usize).cloned().flatten();
            lambda.ok_or(Mismatch::Unbound)
        }
        (Ml::Number(_), _) => Ok(number()),
        (Ml::Lambda(..), [t, u]) => Ok(Rc::new(Type::Function(t.clone(), u.clone()))),
        (Ml::Application(..), [f, a]) => {
            let [t, u] = function(f)?;
            due(1, t, a)?;
            Ok(u)
        }
        (Ml::Fix(_), [f]) => match function(f)? {
            [t, u] if t == u => Ok(t),
            sides => Err(Mismatch::Sides(sides)),
        },
        (Ml::Add(..) | Ml::Subtract(..), [a, b]) => {
            due(0, number(), a)?;
            due(1, number(), b)
        }
        (Ml::If0(..), [test, yes, no]) => {
            due(0, number(), test)?;
            due(2, yes.clone(), no)
        }
        (Ml::Nil(_), [t]) => Ok(list(t)),
        (Ml::Cons(..), [head, tail]) => due(1, list(head), tail),
        (Ml::Hd(_), [e]) => element(e),
        (Ml::Tl(_), [e]) => element(e).map(|_| e.clone()),
        (Ml::Null(_), [e]) => element(e).map(|_| number()),
        (Ml::Wrong(..) | Ml::Ms(..), [t]) => Ok(t.clone()),
        _ => unreachable!("a node has as many parts as its kind says"),
    }
}

/// Whether a Scheme node is well formed whose parts are in order: "sm t of an ML term is well formed exactly if that term has type
/// t. Any other Scheme term is well formed exactly if its parts are."
pub fn scheme_rule(node: &Scheme, parts: &[Rc<Type>]) -> Result<(), Mismatch> {
    match (node, parts) {
        (Scheme::Sm(..), [t, found]) => due(1, t.clone(), found).map(drop),
        _ => Ok(()),
    }
}

/// The type due, if a part has it.
fn due(part: usize, due: Rc<Type>, found: &Rc<Type>) -> Result<Rc<Type>, Mismatch> {
    match due == *found {
        true => Ok(due),
        false => Err(Mismatch::Another { part, due, found: found.clone() }),
    }
}

fn number() -> Rc<Type> {
    Rc::new(Type::Number)
}

fn list(t: &Rc<Type>) -> Rc<Type> {
    Rc::new(Type::List(t.clone()))
}

/// The types of a function's argument and result.
fn function(found: &Rc<Type>) -> Result<[Rc<Type>; 2], Mismatch> {
    match &**found {
        Type::Function(t, u) => Ok([t.clone(), u.clone()]),
        _ => Err(Mismatch::NoFunction(found.clone())),
    }
}

/// The type of a list's elements.
fn element(found: &Rc<Type>) -> Result<Rc<Type>, Mismatch> {
    match &**found {
        Type::List(t) => Ok(t.clone()),
        _ => Err(Mismatch::NoList(found.clone())),
    }
}
