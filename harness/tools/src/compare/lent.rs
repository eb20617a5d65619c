//! Runs at the edges of what may be lent: short and unequal buffers, the first and the last limit, capacities that serve
//! by a word or miss by one, the largest capacity, and next terms of millions of words.

use super::case::Case;
use crate::make::{file_of_text, sum};
use model::run::MOST_WORDS;

/// All of them.
pub fn at_the_edges() -> Vec<Case> {
    [small_buffers(), largest_capacity(), millions_wanted()].concat()
}

/// Recipes of document 01's forms that end after a few steps of few words, in each of the ways.
const SMALL: [&str; 11] = [
    "N 5",
    "N (add 2 3)",
    "N (wrong 9 N)",
    "N (hd (nil N))",
    "L (ms L (fn v0))",
    "N (ms N (sm L (ms L 4)))",
    "L255 (ms L255 (sm L7 (ms L7 nil)))",
    "(L7 to L255) (ms (L7 to L255) (fn v0))",
    "N (app (ms (N to N) (fn v0)) 7)",
    "{N} (ms {N} (cons 1 nil))",
    "N (ms N (app (sm (N to N) (fn N (add v0 1))) 4))",
];

/// Lengths of a buffer for the small recipes: from none to more than any of their terms has.
const LENGTHS: std::ops::RangeInclusive<usize> = 0..=16;

/// Each small recipe with every two lengths, under the first limits and the last.
pub fn small_buffers() -> Vec<Case> {
    let mut cases = Vec::new();
    for file in SMALL.map(file_of_text) {
        for limit in [0, 1, u32::MAX] {
            for first in LENGTHS {
                cases.extend(LENGTHS.map(|second| Case::new(file.clone(), limit, first, second)));
            }
        }
    }
    cases
}

/// A first step to a term of just as many words as the largest capacity has, and to one word more, in buffers that are
/// just as long, a word shorter, and longer.
pub fn largest_capacity() -> Vec<Case> {
    /// Longer than any run uses.
    const LONGER: usize = MOST_WORDS + 3_000;
    let lengths = [MOST_WORDS - 1, MOST_WORDS, MOST_WORDS + 1, LONGER];
    let pairs = lengths.into_iter().flat_map(|length| [(length, length), (length, LONGER), (LONGER, length)]);
    let files = [grown_to(MOST_WORDS), grown_to(MOST_WORDS + 1)];
    pairs.flat_map(|(first, second)| files.clone().map(|file| Case::new(file, 3, first, second))).collect()
}

/// A recipe whose second term has so many words: a list of 2,027 words is put for a variable at eight places, and ones
/// make up the rest.
fn grown_to(words: usize) -> Vec<u8> {
    let row = "(cons 1 ".repeat(10) + "(nil N)" + &")".repeat(10);
    let list = format!("(cons {row} ").repeat(88) + "(nil {N})" + &")".repeat(88);
    let mut leaves = vec!["(null? v0)".to_string(); 8];
    // The sum of eight such leaves has 7 + 8 x 2,028 words; one more if it asks for the list's tail; two more for a one.
    let rest = words - 16_231;
    if !rest.is_multiple_of(2) {
        leaves[0] = "(null? (tl v0))".into();
    }
    leaves.extend(vec!["1".to_string(); rest / 2]);
    file_of_text(&format!("N (app (fn {{{{N}}}} {}) {list})", sum(&leaves)))
}

/// Next terms of more than 8,000,000 words: at the first step of the largest file, and after steps that have made the
/// value large.
pub fn millions_wanted() -> Vec<Case> {
    let spread = format!("N (fix (fn N {}))", sum(&vec!["v0".to_string(); 2_044]));
    let leaves = sum(&vec!["(null? v0)".to_string(); 1_200]);
    let (mut list, mut kind) = ("(cons 1 (cons 2 (nil N)))".to_string(), "{N}".to_string());
    for _ in 0..10 {
        list = format!("(app (fn {kind} (cons v0 (cons v0 (nil {kind})))) {list})");
        kind = format!("{{{kind}}}");
    }
    let doubled = format!("N (app (fn {kind} {leaves}) {list})");
    vec![
        Case::new(file_of_text(&spread), u32::MAX, 4_090, 4_096),
        Case::new(file_of_text(&doubled), u32::MAX, MOST_WORDS, MOST_WORDS),
    ]
}
