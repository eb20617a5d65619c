//! Where refusals 6 and 7 point, by hand from document 02's request U9: the lowest-numbered node that has no type, or is not well
//! formed, while all its own parts are in order; the first declared word that differs from the type found.

use crate::common::*;
use model::file::file;
use model::{on_large_stack, save};

/// The refusal of the file with these words of type and term. A save of the same words is refused the same.
fn told(declared: &[u32], term: &[u32]) -> (u32, u32) {
    let checked = refused_bytes(&file(declared, term));
    let saved = on_large_stack(|| save(declared, term, 0).result.expect_err("no room"));
    assert_eq!((saved.number, saved.place), checked);
    checked
}

/// The word of the term that a refusal 6 names, the declared type being N.
fn node(term: &[u32]) -> u32 {
    let (number, place) = told(&[1], term);
    assert_eq!(number, 6);
    place - 5
}

#[test]
fn every_way_in_which_a_node_is_not_in_order() {
    // app of no function; app of another argument; fix of no function; fix of unequal sides.
    assert_eq!(node(&[19, 17, 17]), 0);
    assert_eq!(node(&[19, 18, 1, 16, 24, 1]), 0);
    assert_eq!(node(&[20, 24, 1]), 0);
    assert_eq!(node(&[20, 18, 1, 24, 1]), 0);
    // add and subtract with no number first or second, or both.
    for kind in [21, 22] {
        assert_eq!(node(&[kind, 24, 1, 17]), 0);
        assert_eq!(node(&[kind, 17, 24, 1]), 0);
        assert_eq!(node(&[kind, 24, 1, 24, 1]), 0);
    }
    // if0 of no number; if0 of two types; cons of another list and of no list.
    assert_eq!(node(&[23, 24, 1, 17, 17]), 0);
    assert_eq!(node(&[23, 17, 17, 24, 1]), 0);
    assert_eq!(node(&[25, 17, 24, 2]), 0);
    assert_eq!(node(&[25, 17, 17]), 0);
    // hd, tl and null? of no list.
    for kind in [26, 27, 28] {
        assert_eq!(node(&[kind, 17]), 0);
        assert_eq!(node(&[kind, 18, 3, 1, 16]), 0);
    }
    // ms N (sm {N} 0): the place of the sm word.
    assert_eq!(node(&[30, 1, 45, 3, 1, 17]), 2);
}

#[test]
fn every_part_is_judged_before_its_node() {
    // if0 (nil N) (hd 3) 1 names hd; so does if0 (nil N) 1 (hd 3), and app 1 (hd 3).
    assert_eq!(node(&[23, 24, 1, 26, w(17, 3), w(17, 1)]), 3);
    assert_eq!(node(&[23, 24, 1, w(17, 1), 26, w(17, 3)]), 4);
    assert_eq!(node(&[19, w(17, 1), 26, w(17, 3)]), 2);
    assert_eq!(node(&[21, 24, 1, 26, w(17, 3)]), 3);
    assert_eq!(node(&[25, 17, 20, 17]), 2);
    // if0 0 (nil N) (hd 3): the branches are of two types only if the last has one.
    assert_eq!(node(&[23, 17, 24, 1, 26, w(17, 3)]), 4);
    // A chain of faults: of hd (hd (hd 0)) only the innermost has all its parts in order.
    assert_eq!(node(&[26, 26, 26, 17]), 2);
    // ms N (cons (sm N (nil N)) (sm L (hd 0))): of a Scheme node both parts; the first sm is lower.
    assert_eq!(node(&[30, 1, 40, 45, 1, 24, 1, 45, 2, 26, 17]), 3);
    // sm N (hd 0): the hd, not the sm.
    assert_eq!(node(&[30, 1, 45, 1, 26, 17]), 4);
}

#[test]
fn the_lowest_of_several() {
    assert_eq!(node(&[21, 26, 17, 27, 17]), 1);
    assert_eq!(node(&[19, 28, 17, 26, 17]), 1);
    // Far apart: add (add .. 0 .. (hd 0)) (tl 0), the first behind 200 words.
    let first = [chain(&[21, 17], 100, &[26, 17]), vec![27, 17]].concat();
    assert_eq!(node(&[vec![21], first].concat()), 201);
    // The lower one nests deeper than the others: if0 (add 0 (add 0 (fix 0))) (hd 0) (tl 0).
    assert_eq!(node(&[23, 21, 17, 21, 17, 20, 17, 26, 17, 27, 17]), 5);
    // Parts in order stand before it: cons 0 (cons 0 (cons 0 (nil L))), the last cons.
    assert_eq!(told(&[3, 1], &[25, 17, 25, 17, 25, 17, 24, 2]), (6, 6 + 4));
}

#[test]
fn across_boundaries_and_lambdas() {
    // fn {N} (ms N (fn (sm N (add (hd v1) v1)))): the add, v1 being a list.
    let term = [18, 3, 1, 30, 1, 34, 45, 1, 21, 26, w(16, 1), w(16, 1)];
    assert_eq!(told(&[4, 3, 1, 1], &term), (6, 8 + 8));
    // The variable's lambda is the one that its operand counts to: fn N (fn {N} (hd v1)).
    assert_eq!(told(&[4, 1, 4, 3, 1, 1], &[18, 1, 18, 3, 1, 26, w(16, 1)]), (6, 10 + 5));
    // 126 times there and back, then sm L of a number: the innermost sm is at level 254.
    let deep = chain(&[30, 1, 45, 1], 126, &[30, 1, 45, 2, 17]);
    assert_eq!(node(&deep), 4 * 126 + 2);
}

#[test]
fn at_the_deepest_level() {
    // 254 sums around tl 0, whose number is at level 256.
    assert_eq!(node(&chain(&[21, 17], 254, &[27, 17])), 508);
    // 255 times null?: the innermost is of a number, and stands at level 255.
    assert_eq!(node(&chain(&[28], 255, &[17])), 254);
}

#[test]
fn behind_a_long_declared_type() {
    // A type of 3,999 words, and hd 0 behind it.
    assert_eq!(told(&balanced(4, 1, 2_000), &[26, 17]), (6, 4 + 3_999));
}

#[test]
fn a_root_of_another_type_is_7() {
    assert_eq!(told(&[2], &[17]), (7, 4));
    assert_eq!(told(&[1], &[24, 1]), (7, 4));
    // A node that has no type is 6, whatever is declared.
    assert_eq!(told(&[2], &[26, 17]), (6, 5));
}

#[test]
fn the_first_declared_word_that_differs() {
    // (N to (N to N)) declared, of fn {N} .., fn N {N} .., fn N (fn L ..) and fn N (fn N (nil N)).
    let declared = [4, 1, 4, 1, 1];
    assert_eq!(told(&declared, &[18, 3, 1, 18, 1, 17]), (7, 5));
    assert_eq!(told(&declared, &[18, 1, 24, 1]), (7, 6));
    assert_eq!(told(&declared, &[18, 1, 18, 2, 17]), (7, 7));
    assert_eq!(told(&declared, &[18, 1, 18, 1, 24, 1]), (7, 8));
    // The declared type is longer than the one found, and shorter.
    assert_eq!(told(&[4, 1, 3, 3, 1], &[18, 1, 24, 1]), (7, 7));
    assert_eq!(told(&[4, 1, 3, 1], &[18, 1, 24, 3, 1]), (7, 7));
    // Of two differences the first: (L7 to L8) of fn L7's part and result, both another.
    assert_eq!(told(&[4, w(2, 7), w(2, 8)], &[18, w(2, 1), 16]), (7, 5));
    // An owner alone, in the result.
    assert_eq!(told(&[4, w(2, 7), w(2, 8)], &[18, w(2, 7), 16]), (7, 6));
}

/// The first words of a type, then the word given, and N for all that is missing then.
fn begins(t: &[u32], count: usize, word: u32) -> Vec<u32> {
    let start = [&t[..count], &[word]].concat();
    let parts: usize = start.iter().map(|word| if *word == 4 { 2 } else { usize::from(*word == 3) }).sum();
    let missing = parts + 1 - start.len();
    [start, vec![1; missing]].concat()
}

#[test]
fn types_found_that_are_longer_than_any_file() {
    // fn t v0 of a type of 2,499 words has one of 4,999; declared are its first words, then L3.
    let wide = balanced(4, 1, 1_250);
    let (found, lambda) = ([&[4][..], &wide, &wide].concat(), [&[18][..], &wide, &[16]].concat());
    assert_eq!(found.len(), 4_999);
    for count in [0, 1, 2, 500, 1_000, 1_500] {
        assert_eq!(told(&begins(&found, count, w(2, 3)), &lambda), (7, 4 + count as u32), "{count}");
    }
    // add (fn t v0) 0 with a type of 4,083 words: 8,167 words are found where a number is due.
    assert_eq!(node(&[&[21, 18][..], &balanced(4, 1, 2_042), &[16, 17]].concat()), 0);
}

#[test]
fn the_last_word_of_a_long_type() {
    // wrong 1 t of 2,045 words, declared with L for its last N.
    let wide = balanced(4, 1, 1_023);
    let declared = [&wide[..2_044], &[2]].concat();
    assert_eq!(told(&declared, &[&[w(29, 1)][..], &wide].concat()), (7, 4 + 2_044));
}

#[test]
fn types_found_that_nest_deeper_than_256() {
    // 254 lambdas of N around the variable of a lambda of {{..{N}..}}, 254 deep: declared are lambdas as deep and another result.
    let deep = chain(&[3], 253, &[1]);
    let term = [&[18][..], &deep, &chain(&[18, 1], 254, &[w(16, 254)])].concat();
    let declared = [&[4][..], &deep, &chain(&[4, 1], 253, &[1])].concat();
    assert_eq!(told(&declared, &term), (7, 4 + 1 + 254 + 2 * 253));
}
