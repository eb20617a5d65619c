//! Random types of every shape.

use super::owners::any_owner;
use crate::random::Random;
use model::build::{l, list, n, to};
use model::Type;
use std::rc::Rc;

/// A type that nests at most `deep` levels more.
pub fn any_type(random: &mut Random, deep: usize) -> Rc<Type> {
    let shape = if deep == 0 { random.below(2) } else { random.weighted(&[(40, 0), (15, 1), (20, 2), (25, 3)]) };
    match shape {
        0 => n(),
        1 => l(any_owner(random)),
        2 => list(any_type(random, deep - 1)),
        _ => to(any_type(random, deep - 1), any_type(random, deep - 1)),
    }
}

/// A type whose values are shown as themselves, not sealed: what a Scheme value in a lump may look like.
pub fn open_type(random: &mut Random) -> Rc<Type> {
    loop {
        let t = any_type(random, 2);
        if !matches!(*t, Type::Lump(_)) {
            return t;
        }
    }
}
