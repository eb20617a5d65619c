//! The nodes that a missing type is laid to, and why, by hand.

use crate::common::*;
use model::node::Node;
use model::read::read_ml;
use model::untyped::{judge, untyped, untyped_at};

/// The words before each node that is named, and its kind.
fn named(words: &[u32]) -> Vec<(usize, u32)> {
    let judged = judge(&read_ml(words, 0, usize::MAX).expect("words in order"));
    judged.err().unwrap_or_default().iter().map(|node| (node.before, node.kind)).collect()
}

/// The words of the type due and of the one found at that node.
fn unequal(words: &[u32]) -> Option<[Vec<u32>; 2]> {
    let found = untyped(&read_ml(words, 0, usize::MAX).expect("words in order")).expect("no type");
    found.mismatch.unequal().map(|types| types.each_ref().map(|t| Node::Type(t).words()))
}

#[test]
fn every_node_whose_parts_are_in_order_and_no_node_around_one() {
    // add (hd 0) (if0 (nil N) (tl 0) (add 0 (null? 0))): neither the adds nor the if0, which is of no number.
    let term = [21, 26, 17, 23, 24, 1, 27, 17, 21, 17, 28, 17];
    assert_eq!(named(&term), [(1, 26), (6, 27), (10, 28)]);
    // fn N (ms N (cons (sm N (nil N)) (app (sm L v0) 0))): both sm, inside Scheme nodes that are not well formed.
    let term = [18, 1, 30, 1, 40, 45, 1, 24, 1, 35, 45, 2, 16, 33];
    assert_eq!(named(&term), [(5, 45), (10, 45)]);
}

#[test]
fn two_types_that_were_to_be_equal() {
    let types = |due: &[u32], found: &[u32]| Some([due.to_vec(), found.to_vec()]);
    // app (fn L9 v0) (ms L7 4); fix (fn N (nil N)); add (nil N) 0; if0 (nil N) 0 0; if0 0 0 (nil N).
    assert_eq!(unequal(&[19, 18, w(2, 9), 16, 30, w(2, 7), 33]), types(&[w(2, 9)], &[w(2, 7)]));
    assert_eq!(unequal(&[20, 18, 1, 24, 1]), types(&[1], &[3, 1]));
    assert_eq!(unequal(&[21, 24, 1, 17]), types(&[1], &[3, 1]));
    assert_eq!(unequal(&[22, 17, 24, 1]), types(&[1], &[3, 1]));
    assert_eq!(unequal(&[23, 24, 1, 17, 17]), types(&[1], &[3, 1]));
    assert_eq!(unequal(&[23, 17, 17, 24, 1]), types(&[1], &[3, 1]));
    // cons 0 (nil L); fn L3 (ms N (sm L v0)), where the variable has its lambda's type.
    assert_eq!(unequal(&[25, 17, 24, 2]), types(&[3, 1], &[3, 2]));
    assert_eq!(unequal(&[18, w(2, 3), 30, 1, 45, 2, 16]), types(&[2], &[w(2, 3)]));
    // A number applied, hd of a number: no two types were to be equal.
    assert_eq!([unequal(&[19, 17, 17]), unequal(&[26, 17])], [None, None]);
}

#[test]
fn a_node_is_found_by_its_place_if_it_is_one_that_might_be_named() {
    // add (hd 0) (tl 0): the root has parts without a type, the numbers have one, and word 9 is behind the term.
    let term = read_ml(&[21, 26, 17, 27, 17], 0, usize::MAX).expect("words in order");
    let kinds: Vec<Option<u32>> = [0, 1, 2, 3, 4, 9].map(|at| untyped_at(&term, at).map(|node| node.kind)).into();
    assert_eq!(kinds, [None, Some(26), None, Some(27), None, None]);
}

#[test]
fn none_where_there_is_a_type() {
    assert_eq!(named(&[18, 3, 1, 18, 1, 21, w(16, 0), 26, w(16, 1)]), []);
}
