//! Owners of lumps, from document 02's request U6: "Types are equal only if the owners are too."

use crate::file::{bytes_of, words_of};
use crate::kinds::LUMP;
use crate::tree::Type;

/// What an owner's L is a part of in its type.
#[derive(Clone, Copy, Debug, PartialEq, Eq)]
pub enum Within {
    /// It is the whole type.
    Alone,
    List,
    Argument,
    Result,
}

impl Within {
    pub const ALL: [Within; 4] = [Within::Alone, Within::List, Within::Argument, Within::Result];

    pub fn name(self) -> &'static str {
        ["alone", "in a list", "in a function's argument", "in a function's result"][self as usize]
    }
}

/// Two owners that stand at the same place of two types and are not the same.
#[derive(Clone, Copy, Debug, PartialEq, Eq)]
pub struct Differing {
    pub due: u32,
    pub found: u32,
    pub within: Within,
}

/// The owners that differ, from left to right, of two types that are otherwise equal.
pub fn differing(due: &Type, found: &Type) -> Option<Vec<Differing>> {
    let mut all = Vec::new();
    same_shape(due, found, Within::Alone, &mut all).then_some(all)
}

/// Whether two types are equal but for owners; those that differ are put with the others.
fn same_shape(due: &Type, found: &Type, within: Within, all: &mut Vec<Differing>) -> bool {
    match (due, found) {
        (Type::Number, Type::Number) => true,
        (Type::Lump(due), Type::Lump(found)) => {
            let differs = due != found;
            all.extend(differs.then_some(Differing { due: *due, found: *found, within }));
            true
        }
        (Type::List(due), Type::List(found)) => same_shape(due, found, Within::List, all),
        (Type::Function(t, u), Type::Function(v, w)) => {
            same_shape(t, v, Within::Argument, all) && same_shape(u, w, Within::Result, all)
        }
        _ => false,
    }
}

/// The owners that the words of types and terms name, those out of range too.
pub fn owners(words: &[u32]) -> impl Iterator<Item = u32> + '_ {
    words.iter().filter(|word| **word % 256 == LUMP).map(|word| word / 256)
}

/// The words with owner 0 for every lump.
pub fn forgotten(words: &[u32]) -> Vec<u32> {
    words.iter().map(|&word| if word % 256 == LUMP { LUMP } else { word }).collect()
}

/// The file with owner 0 for every lump; its header stays.
pub fn without_owners(bytes: &[u8]) -> Vec<u8> {
    match words_of(bytes) {
        Ok(words) => bytes_of(&[&words[..4], &forgotten(&words[4..])].concat()),
        Err(_) => bytes.to_vec(),
    }
}
