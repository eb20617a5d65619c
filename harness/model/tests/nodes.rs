//! The reader of nodes by hand: "that very part of the caller's words, from its first word to its last, or the empty part where
//! no whole node starts there".

use crate::common::*;
use model::nodes::{is_one_word, node_at, size_at, Not, Whole, Why};

/// The words of the node at each place, and at the two places behind them.
fn sizes(words: &[u32]) -> Vec<usize> {
    (0..words.len() + 2).map(|at| size_at(words, at)).collect()
}

#[test]
fn a_node_ends_with_its_last_part() {
    // add 2 3.
    assert_eq!(sizes(&[21, w(17, 2), w(17, 3)]), [3, 1, 1, 0, 0]);
    // app (ms (N to N) (fn v0)) 7.
    assert_eq!(sizes(&[19, 30, 4, 1, 1, 34, 32, w(17, 7)]), [8, 6, 3, 1, 1, 2, 1, 1, 0, 0]);
    // if0 (hd (nil L)) (wrong 300 {N}) (fix v0).
    assert_eq!(sizes(&[23, 26, 24, 2, w(29, 300), 3, 1, 20, 16]), [9, 3, 2, 1, 3, 2, 1, 2, 1, 0, 0]);
    // if0 (null? nil) (wrong 9) (sm L (tl v1)), in Scheme.
    assert_eq!(sizes(&[38, w(43, 2), 39, w(44, 9), 45, 2, 27, w(16, 1)]), [8, 2, 1, 1, 4, 1, 2, 1, 0, 0]);
}

#[test]
fn an_owner_is_no_part() {
    // ms (L7 to {L255}) (sm L 0).
    assert_eq!(sizes(&[30, 4, w(2, 7), 3, w(2, 255), 45, 2, 17]), [8, 4, 1, 2, 1, 3, 1, 1, 0, 0]);
    // One owner is too large: the list, the function and the ms are not whole, the owner before it and the sm behind it are.
    assert_eq!(sizes(&[30, 4, w(2, 7), 3, w(2, 256), 45, 2, 17]), [0, 0, 1, 0, 0, 3, 1, 1, 0, 0]);
}

#[test]
fn what_stands_behind_a_node_does_not_matter() {
    assert_eq!(sizes(&[1, 99, 21, 17, 17, 0]), [1, 0, 3, 1, 1, 0, 0, 0]);
    // A whole file: its first words, which are its header, are read as nodes too; the function would need 5 for a part.
    assert_eq!(sizes(&[1, 4, 1, 5, 1, 17]), [1, 0, 1, 0, 1, 1, 0, 0]);
    assert_eq!(sizes(&[4, 1, 1, 4, 1]), [3, 1, 1, 0, 1, 0, 0]);
}

#[test]
fn scope_typing_and_nesting_do_not_matter() {
    assert_eq!(sizes(&[w(16, 16_777_215)]), [1, 0, 0]);
    assert_eq!(sizes(&[19, 17, 17]), [3, 1, 1, 0, 0]);
    let deep = chain(&[20], 16_383, &[17]);
    assert_eq!([0, 1, 16_382, 16_383, 16_384].map(|at| size_at(&deep, at)), [16_384, 16_383, 2, 1, 0]);
    assert_eq!(node_at(&deep, 0), Ok(Whole { words: 16_384, levels: 16_384 }));
    // fn N (add v0 1): the sum is at level 2, its parts at 3.
    assert_eq!(node_at(&[18, 1, 21, 16, w(17, 1)], 0), Ok(Whole { words: 5, levels: 3 }));
}

#[test]
fn a_place_past_the_end_holds_none() {
    for at in [2, 3, 4, 1 << 32, 1 << 63, usize::MAX - 1, usize::MAX] {
        assert_eq!(node_at(&[1, 1], at), Err(Not { why: Why::PastTheEnd, place: at }));
    }
    assert_eq!(sizes(&[]), [0, 0]);
}

/// Words that are no whole node, and which word says so.
const NOT_WHOLE: [(&[u32], Why, usize); 14] = [
    (&[0], Why::NoKind, 0),
    (&[5, 1, 1], Why::NoKind, 0),
    (&[31], Why::NoKind, 0),
    (&[46, 1], Why::NoKind, 0),
    (&[255], Why::NoKind, 0),
    (&[21, 17], Why::PastTheEnd, 2),
    (&[21, 17, 99], Why::NoKind, 2),
    (&[w(21, 1), 17, 17], Why::Operand, 0),
    (&[20, w(29, 65_536), 1], Why::Operand, 1),
    // An owner over 255, alone and as a part.
    (&[w(2, 256)], Why::Operand, 0),
    (&[24, 4, w(2, 255), w(2, 256)], Why::Operand, 3),
    // An ML term in a type's place, a type in an ML term's, and the other language in either's.
    (&[18, 17, 17], Why::OtherSort, 1),
    (&[20, 1], Why::OtherSort, 1),
    (&[30, 1, 17], Why::OtherSort, 2),
];

#[test]
fn words_that_are_no_whole_node() {
    for (words, why, place) in NOT_WHOLE {
        assert_eq!(node_at(words, 0), Err(Not { why, place }), "{words:?}");
        assert_eq!(size_at(words, 0), 0);
    }
}

/// Operands at the ends of every range.
const OPERANDS: [u32; 11] = [0, 1, 2, 3, 4, 255, 256, 65_535, 65_536, 16_777_214, 16_777_215];

#[test]
fn one_word_is_a_node_of_size_1() {
    let every = (0..=255).flat_map(|kind| OPERANDS.map(|operand| w(kind, operand)));
    let mut found = 0;
    for word in every {
        // Alone, and with parts of each sort behind it.
        for behind in [&[][..], &[1, 1, 1], &[17, 17, 17], &[33, 33, 33], &[1, 17, 33], &[99]] {
            let words = [&[word], behind].concat();
            assert_eq!(size_at(&words, 0) == 1, is_one_word(word), "{words:?}");
        }
        found += u32::from(is_one_word(word));
    }
    // N and the Scheme nil with operand 0; L with owners up to 255; variables and numbers with each; codes from 1 to 65,535.
    assert_eq!(found, 2 + 6 + 4 * 11 + 7);
}

#[test]
fn a_part_that_is_a_type_is_a_part() {
    assert!(!is_one_word(24) && !is_one_word(w(29, 300)));
    assert_eq!((size_at(&[24, 1], 0), size_at(&[w(29, 300), 3, 1], 0)), (2, 3));
    assert_eq!((size_at(&[24], 0), size_at(&[w(29, 300)], 0)), (0, 0));
}
