//! Short names to write trees with, in tests and generators.

use crate::node::Node;
use crate::tree::{Ml, Scheme, Type};
use std::rc::Rc;

pub fn n() -> Rc<Type> {
    Rc::new(Type::Number)
}

/// The lump of an owner.
pub fn l(owner: u32) -> Rc<Type> {
    Rc::new(Type::Lump(owner))
}

pub fn list(t: Rc<Type>) -> Rc<Type> {
    Rc::new(Type::List(t))
}

pub fn to(t: Rc<Type>, u: Rc<Type>) -> Rc<Type> {
    Rc::new(Type::Function(t, u))
}

pub fn ml(term: Ml) -> Rc<Ml> {
    Rc::new(term)
}

pub fn sc(term: Scheme) -> Rc<Scheme> {
    Rc::new(term)
}

/// The file of a declared type and a term.
pub fn recipe_file(declared: &Rc<Type>, term: &Rc<Ml>) -> Vec<u8> {
    crate::file::file(&Node::Type(declared).words(), &Node::Ml(term).words())
}
