//! The check of a file: refusals 1 to 7 in document 01's order, or the recipe.

use crate::file::{regions, words_of};
use crate::node::Node;
use crate::read::{read_ml, read_type, DEEPEST};
use crate::scope::unbound;
use crate::tree::{Ml, Type};
use crate::typing::difference;
use crate::untyped::{judge, lowest};
use std::rc::Rc;

/// An accepted file's declared type and term.
#[derive(Clone, Debug, PartialEq, Eq)]
pub struct Recipe {
    pub declared: Rc<Type>,
    pub term: Rc<Ml>,
}

/// The place of the declared type's first word, behind the header.
pub const DECLARED: usize = 4;

impl Recipe {
    /// The place of the term's first word in the recipe's file.
    pub fn start(&self) -> usize {
        DECLARED + Node::Type(&self.declared).size()
    }
}

#[derive(Clone, Copy, Debug, PartialEq, Eq)]
pub struct Refusal {
    pub number: u32,
    pub place: u32,
}

impl Refusal {
    pub fn new(number: u32, place: usize) -> Refusal {
        Refusal { number, place: place as u32 }
    }
}

/// Reads a file whose words are in order and whose nesting is at most `deepest`: refusals 1 to 4.
pub fn read_recipe(bytes: &[u8], deepest: usize) -> Result<Recipe, Refusal> {
    let words = words_of(bytes)?;
    let regions = regions(&words)?;
    read_words(regions.declared, regions.term, deepest)
}

/// Reads the words of a declared type and of a term, with places in the file that has them: refusals 3 and 4.
pub fn read_words(declared: &[u32], term: &[u32], deepest: usize) -> Result<Recipe, Refusal> {
    let start = DECLARED + declared.len();
    let declared = read_type(declared, DECLARED, deepest)?;
    let term = read_ml(term, start, deepest)?;
    Ok(Recipe { declared, term })
}

pub fn check(bytes: &[u8]) -> Result<Recipe, Refusal> {
    judged(read_recipe(bytes, DEEPEST)?)
}

/// A recipe that is read, unless it is refused by 5, 6 or 7. "Refusal 7 carries the first declared word that differs from the type
/// found."
pub fn judged(recipe: Recipe) -> Result<Recipe, Refusal> {
    let start = recipe.start();
    if let Some(before) = unbound(&recipe.term) {
        return Err(Refusal::new(5, start + before));
    }
    let found = judge(&recipe.term).map_err(|nodes| {
        let node = lowest(nodes).expect("a term without a type has such a node");
        Refusal::new(6, start + node.before)
    })?;
    match difference(&recipe.declared, &found) {
        Some(word) => Err(Refusal::new(7, DECLARED + word)),
        None => Ok(recipe),
    }
}

/// The check's answer as one number: 0 for accepted, else the refusal's number + 256 x its place.
pub fn answer(checked: &Result<Recipe, Refusal>) -> u64 {
    match checked {
        Ok(_) => 0,
        Err(refusal) => u64::from(refusal.number) + 256 * u64::from(refusal.place),
    }
}
