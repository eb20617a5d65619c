//! Document 01's "Recipes tried by hand", words and results written by hand from the document, and where the steps went
//! by hand from document 02: calls, conversions, others.

use crate::common::*;
use model::End;

#[test]
fn add_2_3() {
    value(&[1], &[21, 529, 785], 1, [0, 0, 1], &[1297]);
}

#[test]
fn subtract_2_3() {
    value(&[1], &[22, w(17, 2), w(17, 3)], 1, [0, 0, 1], &[17]);
}

#[test]
fn add_over_the_largest_number() {
    error(&[1], &[21, w(17, 16_777_215), w(17, 1)], 5, 2, [0, 0, 2]);
}

#[test]
fn ms_number_of_a_lambda() {
    error(&[1], &[30, 1, 34, 33], 1, 2, [0, 1, 1]);
}

/// (ms (N to N) (fn v0)) applied to 7.
const WRAPPED: [u32; 8] = [19, 30, 4, 1, 1, 34, 32, w(17, 7)];

#[test]
fn wrapped_identity() {
    value(&[1], &WRAPPED, 5, [2, 3, 0], &[w(17, 7)]);
}

#[test]
fn wrapped_identity_step_by_step() {
    let terms: [&[u32]; 6] = [
        &WRAPPED,
        &[19, 18, 1, 30, 1, 35, 34, 32, 45, 1, 16, w(17, 7)],
        &[30, 1, 35, 34, 32, 45, 1, w(17, 7)],
        &[30, 1, 35, 34, 32, w(33, 7)],
        &[30, 1, w(33, 7)],
        &[w(17, 7)],
    ];
    // ms, application, sm, application, ms.
    let went = [[0, 0, 0], [0, 1, 0], [1, 1, 0], [1, 2, 0], [2, 2, 0], [2, 3, 0]];
    for (limit, words) in terms.iter().enumerate() {
        let end = if limit == 5 { End::Value } else { End::Spent };
        let run = lent(&[1], &WRAPPED, limit as u32, 12);
        leaves(&run, ended(end, 0, limit as u32, words.len() as u32, 0, went[limit]), words);
    }
}

#[test]
fn wrapped_identity_limits() {
    assert_eq!(lent(&[1], &WRAPPED, 4, 4096).result.map(|e| e.end), Ok(End::Spent));
    assert_eq!(lent(&[1], &WRAPPED, 1_000_000, 12).result, ended(End::Value, 0, 5, 1, 0, [2, 3, 0]));
    leaves(&lent(&[1], &WRAPPED, 1_000_000, 11), ended(End::Full, 0, 0, 8, 12, [0, 0, 0]), &WRAPPED);
}

#[test]
fn a_lump_opened_in_scheme() {
    value(&[1], &[30, 1, 45, 2, 30, 2, w(33, 4)], 2, [0, 2, 0], &[w(17, 4)]);
}

#[test]
fn a_lump_is_a_value_under_limit_0() {
    let term = [30, 2, 34, 32];
    leaves(&lent(&[2], &term, 0, 4096), ended(End::Value, 0, 0, 4, 0, [0, 0, 0]), &term);
}

#[test]
fn fix_of_the_identity_is_spent() {
    let term = [20, 18, 1, 16];
    for limit in [0, 1, 2, 3, 1000] {
        leaves(&lent(&[1], &term, limit, 4096), ended(End::Spent, 0, limit, 4, 0, [limit, 0, 0]), &term);
    }
}

#[test]
fn an_improper_list() {
    error(&[3, 1], &[30, 3, 1, 40, w(33, 1), w(33, 2)], 3, 4, [0, 3, 1]);
}

#[test]
fn hd_of_nil() {
    error(&[1], &[26, 24, 1], 4, 2, [0, 0, 2]);
}

/// "The recipe ms N (if0 nil 1 2) ends as error 1 after 2 steps": document 02's request U4.
#[test]
fn scheme_if0_of_no_number() {
    error(&[1], &[30, 1, 38, 39, w(33, 1), w(33, 2)], 1, 2, [0, 0, 2]);
}

#[test]
fn a_wrong_before_the_operation() {
    error(&[1], &[30, 1, 36, 34, 32, w(44, 300)], 300, 1, [0, 0, 1]);
}

#[test]
fn a_variable_of_the_other_language() {
    assert_eq!(refused(&[3, 4, 5, 7, 4, 1, 1, 18, 1, 30, 1, 32]), (5, 11));
}
