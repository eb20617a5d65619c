//! What kind of file comes next.

use super::damage::damage;
use super::edges::nested;
use super::forms::Maker;
use super::types::any_type;
use crate::random::Random;
use model::build::{ml, n, recipe_file};
use model::{Ml, Type};
use std::rc::Rc;

/// A well-typed recipe: most are small, a few large. Very large ones may not fit a file and are then refused.
pub fn well_typed_file(random: &mut Random) -> Vec<u8> {
    let (small, middle, large) = (2 + random.below(12), 10 + random.below(60), 200 + random.below(1_200));
    let budget = random.weighted(&[(45, small), (53, middle), (2, large)]);
    let declared = declared(random);
    let term = Maker::new(random, budget).ml(&declared);
    recipe_file(&declared, &term)
}

/// A well-typed recipe in which Scheme's if0 seldom tests a number: a script that tests a list by mistake. Half of them
/// begin with such a test.
pub fn mistaken_file(random: &mut Random) -> Vec<u8> {
    let (first, budget) = (random.chance(50), 4 + random.below(40));
    let declared = declared(random);
    let mut maker = Maker { numbers_tested: 10, ..Maker::new(random, budget) };
    let term = match first {
        true => ml(Ml::Ms(declared.clone(), maker.scheme_if0(&declared))),
        false => maker.ml(&declared),
    };
    recipe_file(&declared, &term)
}

/// The type that a recipe declares.
fn declared(random: &mut Random) -> Rc<Type> {
    match random.chance(35) {
        true => n(),
        false => any_type(random, 3),
    }
}

/// A file that is damaged in some way, or nests close to the bound.
pub fn damaged_file(random: &mut Random) -> Vec<u8> {
    if random.chance(4) {
        return nested(random);
    }
    let mut bytes = well_typed_file(random);
    for _ in 0..random.weighted(&[(75, 1), (18, 2), (7, 4)]) {
        bytes = damage(random, bytes);
    }
    bytes
}
