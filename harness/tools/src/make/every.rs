//! Every term and every type of up to 3 words over all kinds and telling operands.

use model::file::file;
use model::kinds::{due, Sort, LUMP};

/// 0 to 4, and the ends of the ranges of codes and numbers.
const OPERANDS: [u32; 8] = [0, 1, 2, 3, 4, 65_535, 65_536, 16_777_215];

/// The first owners of a lump, the last, and over it.
const OWNERS: [u32; 6] = [0, 1, 255, 256, 65_536, 16_777_215];

const MOST_WORDS: usize = 3;

/// All tree kinds, the numbers among and around them that are none, and some far away.
fn kinds() -> impl Iterator<Item = u32> {
    (0..=49).chain([99, 128, 255])
}

fn telling_words() -> Vec<u32> {
    let operands = |kind: u32| if kind == LUMP { &OWNERS[..] } else { &OPERANDS };
    kinds().flat_map(|kind| operands(kind).iter().map(move |operand| kind + 256 * operand)).collect()
}

/// Calls with each sequence of up to 3 words, of which all but the last are in order, and whether the whole is a node.
/// What comes after the first offending word changes nothing, so a sequence ends there.
fn every(sort: Sort, each: &mut dyn FnMut(&[u32], bool)) {
    let telling = telling_words();
    extend(&telling, &mut Vec::new(), &[sort], each);
}

fn extend(telling: &[u32], words: &mut Vec<u32>, dues: &[Sort], each: &mut dyn FnMut(&[u32], bool)) {
    if !words.is_empty() {
        each(words, dues.is_empty());
    }
    if words.len() == MOST_WORDS {
        return;
    }
    for &word in telling {
        words.push(word);
        match dues.split_first().and_then(|(sort, rest)| Some((due(word, *sort)?, rest))) {
            Some((row, rest)) => extend(telling, words, &[row.parts, rest].concat(), each),
            None => each(words, false),
        }
        words.pop();
    }
}

/// Every term of up to 3 words, in order or not, declared N.
pub fn every_small_term(each: &mut dyn FnMut(Vec<u8>)) {
    every(Sort::Ml, &mut |term, _| each(file(&[1], term)));
}

/// Every declared type of up to 3 words, in order or not, with the term 0.
pub fn every_small_type(each: &mut dyn FnMut(Vec<u8>)) {
    every(Sort::Type, &mut |declared, _| each(file(declared, &[17])));
}

/// Every term and every declared type of up to 3 words that are in order, together.
pub fn every_small_recipe(each: &mut dyn FnMut(Vec<u8>)) {
    let (types, terms) = (in_order(Sort::Type), in_order(Sort::Ml));
    for term in &terms {
        for declared in &types {
            each(file(declared, term));
        }
    }
}

fn in_order(sort: Sort) -> Vec<Vec<u32>> {
    let mut found = Vec::new();
    every(sort, &mut |words, whole| {
        if whole {
            found.push(words.to_vec());
        }
    });
    found
}
