//! Where the steps went: each kind of node counted by hand from document 02's request U1, and the reading of it that a
//! step is counted by the node whose turn it is, not by what becomes of it.

use crate::common::*;
use model::file::file;
use model::laws::try_counts;
use model::{check, on_large_stack, End, Ended};

/// One step on the term is counted so.
fn first_step(declared: &[u32], term: &[u32], went: Went) {
    let ended = lent(declared, term, 1, 4096).result.expect("accepted");
    assert_eq!((ended.steps, ended.classes), (1, counts(went)), "{term:?}");
}

/// The same of a Scheme node, seen under ms L.
fn first_scheme_step(term: &[u32], went: Went) {
    first_step(&[2], &[&[30, 2], term].concat(), went);
}

const CALL: Went = [1, 0, 0];
const CONVERSION: Went = [0, 1, 0];
const OTHER: Went = [0, 0, 1];
const SEVEN: u32 = w(33, 7);

#[test]
fn a_step_on_an_application_or_a_fix_is_a_call() {
    first_step(&[1], &[19, 18, 1, 16, 17], CALL);
    first_step(&[1], &[20, 18, 1, 16], CALL);
    first_step(&[1], &[20, 18, 1, 17], CALL);
    first_scheme_step(&[35, 34, 32, SEVEN], CALL);
}

#[test]
fn a_step_on_an_ms_or_sm_word_is_a_conversion() {
    first_step(&[1], &[30, 1, SEVEN], CONVERSION);
    first_step(&[3, 1], &[30, 3, 1, 39], CONVERSION);
    first_step(&[3, 1], &[30, 3, 1, 40, SEVEN, 39], CONVERSION);
    first_step(&[4, 1, 1], &[30, 4, 1, 1, 34, 32], CONVERSION);
    first_scheme_step(&[45, 1, 17], CONVERSION);
    first_scheme_step(&[45, 3, 1, 24, 1], CONVERSION);
    first_scheme_step(&[45, 3, 1, 25, 17, 24, 1], CONVERSION);
    first_scheme_step(&[45, 4, 1, 1, 18, 1, 16], CONVERSION);
    first_scheme_step(&[45, 2, 30, 2, SEVEN], CONVERSION);
}

#[test]
fn all_other_steps_are_others() {
    for kind in [21, 22] {
        first_step(&[1], &[kind, 17, 17], OTHER);
        first_scheme_step(&[kind + 15, SEVEN, SEVEN], OTHER);
    }
    for test in [0, 1] {
        first_step(&[1], &[23, w(17, test), 17, 17], OTHER);
        first_scheme_step(&[38, w(33, test), SEVEN, SEVEN], OTHER);
    }
    first_step(&[1], &[26, 25, 17, 24, 1], OTHER);
    first_step(&[3, 1], &[27, 25, 17, 24, 1], OTHER);
    first_step(&[1], &[28, 24, 1], OTHER);
    for kind in [41, 42, w(43, 0), w(43, 1), w(43, 2), w(43, 3)] {
        first_scheme_step(&[kind, 40, SEVEN, 39], OTHER);
    }
}

#[test]
fn the_node_counts_and_not_what_becomes_of_it() {
    // A Scheme application of no lambda becomes wrong 2, and is a call.
    first_scheme_step(&[35, 39, SEVEN], CALL);
    error(&[1], &[30, 1, 35, 39, SEVEN], 2, 2, [1, 0, 1]);
    // ms and its type, of a value that does not fit, becomes a wrong, and is a conversion.
    error(&[1], &[30, 1, 39], 1, 2, [0, 1, 1]);
    error(&[3, 1], &[30, 3, 1, SEVEN], 3, 2, [0, 1, 1]);
    error(&[4, 1, 1], &[30, 4, 1, 1, SEVEN], 2, 2, [0, 1, 1]);
    // Other nodes that become wrongs are others, and so is the error's own step.
    error(&[1], &[30, 1, 41, 39], 4, 2, [0, 0, 2]);
    error(&[1], &[30, 1, 36, 39, SEVEN], 1, 2, [0, 0, 2]);
    error(&[1], &[30, 1, 38, 39, SEVEN, SEVEN], 1, 2, [0, 0, 2]);
}

#[test]
fn the_errors_own_step_is_an_other_wherever_it_stands() {
    error(&[1], &[w(29, 9), 1], 9, 1, OTHER);
    // Under an ms, under an sm under it, as the function and as the argument of an application, and under a fix.
    error(&[1], &[30, 1, w(44, 9)], 9, 1, OTHER);
    error(&[1], &[30, 1, 45, 1, w(29, 9), 1], 9, 1, OTHER);
    error(&[1], &[19, w(29, 9), 4, 1, 1, 17], 9, 1, OTHER);
    error(&[1], &[30, 1, 35, 34, 32, w(44, 9)], 9, 1, OTHER);
    error(&[1], &[20, w(29, 9), 4, 1, 1], 9, 1, OTHER);
}

#[test]
fn parts_are_counted_by_their_own_nodes() {
    // ms N of (add 1 2): the sum, and then the ms.
    value(&[1], &[30, 1, 36, w(33, 1), w(33, 2)], 2, [0, 1, 1], &[w(17, 3)]);
    // ms L of a value has no step of its own: ms L (add 1 2) has the sum alone.
    value(&[2], &[30, 2, 36, w(33, 1), w(33, 2)], 1, [0, 0, 1], &[30, 2, w(33, 3)]);
    // (fix (fn (N to N) (fn N v0))) applied to (add 1 2): the fix, the sum, the application.
    value(&[1], &[19, 20, 18, 4, 1, 1, 18, 1, 16, 21, w(17, 1), w(17, 2)], 3, [2, 0, 1], &[w(17, 3)]);
}

#[test]
fn a_step_that_was_not_made_is_not_counted() {
    // ms {N} (cons (app (fn v0) (add 3 4)) nil): the sum, the application, the list, its number, its end.
    let term = [30, 3, 1, 40, 35, 34, 32, 36, w(33, 3), w(33, 4), 39];
    let went = [[0, 0, 0], [0, 0, 1], [1, 0, 1], [1, 1, 1], [1, 2, 1], [1, 3, 1]];
    for (limit, went) in (0..).zip(went) {
        let ended = lent(&[3, 1], &term, limit, 11).result.expect("accepted");
        let end = if limit == 5 { End::Value } else { End::Spent };
        assert_eq!((ended.end, ended.steps, ended.classes), (end, limit, counts(went)));
    }
    // (ms (N to N) (fn v0)) applied to 7, in 11 words: its first step, a conversion, does not fit.
    let wrapped = [19, 30, 4, 1, 1, 34, 32, w(17, 7)];
    assert_eq!(lent(&[1], &wrapped, 9, 11).result, ended(End::Full, 0, 0, 8, 12, [0, 0, 0]));
    // fix (fn {N} (cons 1 v0)) has 7 words, then 9, then 11: the third call does not fit.
    let grows = [20, 18, 3, 1, 25, w(17, 1), 16];
    assert_eq!(lent(&[3, 1], &grows, 9, 11).result, ended(End::Full, 0, 2, 11, 13, [2, 0, 0]));
}

#[test]
fn the_law_of_the_counts_finds_a_false_count() {
    let (declared, term) = ([1], [19, 30, 4, 1, 1, 34, 32, w(17, 7)]);
    on_large_stack(|| {
        let recipe = check(&file(&declared, &term)).expect("accepted");
        let right = lent(&declared, &term, 9, 12).result.expect("accepted");
        assert_eq!(try_counts(&recipe, &right), Ok(()));
        for went in [[2, 2, 0], [3, 2, 0], [2, 2, 1], [0, 0, 5]] {
            assert!(try_counts(&recipe, &Ended { classes: counts(went), ..right }).is_err(), "{went:?}");
        }
    });
}
