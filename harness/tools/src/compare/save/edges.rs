//! Saves at the edges: each length of a buffer around a file's, the largest files and those that would be larger, words that
//! run out and remain, and every type and term that is empty.

use super::SaveCase;
use crate::make::edges::balanced;
use crate::make::file_of_text;

/// All of them.
pub fn all() -> Vec<SaveCase> {
    [every_room(), largest_files(), too_long(), first_faults(), empty_words()].concat()
}

/// Recipes of few words, one of each type, whose terms are values or not.
const SMALL: [&str; 9] = [
    "N 5",
    "L (ms L (fn v0))",
    "L255 (ms L255 (sm L7 (ms L7 nil)))",
    "({L7} to L) (fn {L7} (ms L v0))",
    "{N} (nil N)",
    "(N to N) (fn N v0)",
    "N (app (ms (N to N) (fn v0)) 16777215)",
    "{{N}} (wrong 65535 {{N}})",
    "N (hd (ms {N} (cons 1 (cons (num? nil) nil))))",
];

/// Each small recipe in buffers of every length from none to more than its file has, and much longer ones.
pub fn every_room() -> Vec<SaveCase> {
    let mut cases = Vec::new();
    for text in SMALL {
        let case = SaveCase::of_file(&file_of_text(text)).expect("a header in order");
        let rooms = (0..=case.file_bytes() + 9).chain([1_000, 16_383, 16_384, 16_385, 70_000]);
        cases.extend(rooms.map(|room| case.in_room(room)));
    }
    cases
}

/// Files of some bytes less than 16,384 to some more, accepted but for their size: a sum, a choice of a sum, and hd of nil at
/// a type that has nearly half of the words.
pub fn largest_files() -> Vec<SaveCase> {
    let sums = (2_044..=2_048).flat_map(|leaves| {
        let sum = balanced(21, 17, leaves);
        [(vec![1], [&[23, 17, 17][..], &sum].concat()), (vec![1], sum)]
    });
    let types = (1_021..=1_025).map(|leaves| {
        let wide = balanced(4, 1, leaves);
        (wide.clone(), [&[26, 24][..], &wide].concat())
    });
    let cases = sums.chain(types).map(|(declared, term)| SaveCase::new(&declared, &term, 0));
    cases.flat_map(|case| [16_383, 16_384, 16_388, 20_000].map(|room| case.in_room(room))).collect()
}

/// As many words as a file may have or a word more, by the type alone, by the term alone or by both; and far more. Some are
/// in order, others not.
pub fn too_long() -> Vec<SaveCase> {
    let mut cases = Vec::new();
    for (types, terms) in [(4_092, 0), (4_093, 0), (0, 4_092), (0, 4_093), (1, 4_092), (4_092, 1), (2_000, 2_093)] {
        for (kind, word) in [(1, 17), (99, 99), (3, 20), (17, 1)] {
            cases.push(SaveCase::new(&vec![kind; types], &vec![word; terms], 16_392));
        }
    }
    for (types, terms) in [(100_000, 0), (0, 100_000), (1, 1 << 20), (1 << 20, 1)] {
        cases.extend([0, 24, 16_384].map(|room| SaveCase::new(&vec![1; types], &vec![17; terms], room)));
    }
    cases
}

/// Words of which type and term each have a fault, or one of them: at the first word, inside, one past, and one that remains;
/// and nested too deep.
pub fn first_faults() -> Vec<SaveCase> {
    let deep = |word: u32, count: usize, rest: &[u32]| [vec![word; count], rest.to_vec()].concat();
    let types: [Vec<u32>; 9] = [
        vec![1],
        vec![99],
        vec![3, 257],
        vec![4, 1],
        vec![1, 1],
        deep(3, 255, &[1]),
        deep(3, 256, &[1]),
        deep(3, 256, &[99]),
        deep(3, 300, &[99]),
    ];
    let terms: [Vec<u32>; 11] = [
        vec![17],
        vec![99],
        vec![21, 17, 33],
        vec![21, 17],
        vec![17, 17],
        vec![16],
        vec![19, 17, 17],
        deep(20, 255, &[17]),
        deep(20, 256, &[17]),
        deep(20, 256, &[99]),
        deep(20, 300, &[99]),
    ];
    let both = types.iter().flat_map(|declared| terms.iter().map(move |term| SaveCase::new(declared, term, 0)));
    both.flat_map(|case| [0, case.file_bytes() - 1, case.file_bytes()].map(|room| case.in_room(room))).collect()
}

/// An empty type, an empty term, or both, beside words in order and not.
pub fn empty_words() -> Vec<SaveCase> {
    let words: [&[u32]; 9] = [&[], &[1], &[3, 3, 1], &[4, 1], &[17], &[21, 17, 17], &[99], &[16], &[0]];
    let both = words.iter().flat_map(|words| [(&[][..], *words), (*words, &[][..])]);
    both.flat_map(|(declared, term)| [0, 15, 16, 20, 64].map(|room| SaveCase::new(declared, term, room))).collect()
}
