//! Each rule of document 01, and of document 02's request U4, on a small term, the next term's words written by hand.

use crate::common::*;
use model::End;

/// One step takes the first term to the second.
fn steps_to(declared: &[u32], before: &[u32], after: &[u32]) {
    let run = lent(declared, before, 1, 4096);
    let end = run.result.map(|e| (e.end, e.steps, e.left));
    assert!(matches!(end, Ok((End::Value | End::Spent, 1, _))), "{end:?} from {before:?}");
    assert_eq!(&run.first[..after.len()], after, "from {before:?}");
    assert_eq!(end.map(|e| e.2), Ok(after.len() as u32));
}

/// A Scheme step, seen under ms L.
fn scheme(before: &[u32], after: &[u32]) {
    steps_to(&[2], &[&[30, 2], before].concat(), &[&[30, 2], after].concat());
}

const SEVEN: u32 = w(33, 7);
const LARGEST: u32 = 16_777_215;

#[test]
fn ml_rules() {
    steps_to(&[1], &[19, 18, 1, 21, 16, 16, w(17, 4)], &[21, w(17, 4), w(17, 4)]);
    steps_to(&[1], &[20, 18, 1, 21, 16, w(17, 1)], &[21, 20, 18, 1, 21, 16, w(17, 1), w(17, 1)]);
    steps_to(&[1], &[21, w(17, LARGEST), w(17, 0)], &[w(17, LARGEST)]);
    steps_to(&[1], &[21, w(17, LARGEST), w(17, LARGEST)], &[w(29, 5), 1]);
    steps_to(&[1], &[22, w(17, 5), w(17, 3)], &[w(17, 2)]);
    steps_to(&[1], &[23, w(17, 0), w(17, 8), w(29, 9), 1], &[w(17, 8)]);
    steps_to(&[1], &[23, w(17, 1), w(29, 9), 1, w(17, 8)], &[w(17, 8)]);
    steps_to(&[1], &[26, 25, w(17, 8), 24, 1], &[w(17, 8)]);
    steps_to(&[2], &[26, 24, 2], &[w(29, 4), 2]);
    steps_to(&[3, 1], &[27, 25, w(17, 8), 24, 1], &[24, 1]);
    steps_to(&[3, 2], &[27, 24, 2], &[w(29, 4), 3, 2]);
    steps_to(&[1], &[28, 24, 2], &[w(17, 0)]);
    steps_to(&[1], &[28, 25, w(17, 8), 24, 1], &[w(17, 1)]);
}

#[test]
fn ms_rules() {
    steps_to(&[1], &[30, 1, SEVEN], &[w(17, 7)]);
    steps_to(&[1], &[30, 1, 39], &[w(29, 1), 1]);
    steps_to(&[3, 2], &[30, 3, 2, 39], &[24, 2]);
    steps_to(&[3, 1], &[30, 3, 1, 40, SEVEN, 39], &[25, 30, 1, SEVEN, 30, 3, 1, 39]);
    steps_to(&[3, 1], &[30, 3, 1, SEVEN], &[w(29, 3), 3, 1]);
    steps_to(&[4, 1, 2], &[30, 4, 1, 2, 34, 32], &[18, 1, 30, 2, 35, 34, 32, 45, 1, 16]);
    steps_to(&[4, 1, 2], &[30, 4, 1, 2, 39], &[w(29, 2), 4, 1, 2]);
}

#[test]
fn scheme_applications_and_numbers() {
    scheme(&[35, 34, 40, 32, 32, SEVEN], &[40, SEVEN, SEVEN]);
    scheme(&[35, 39, SEVEN], &[w(44, 2)]);
    scheme(&[36, SEVEN, w(33, 1)], &[w(33, 8)]);
    scheme(&[36, SEVEN, w(33, LARGEST)], &[w(44, 5)]);
    scheme(&[36, 39, SEVEN], &[w(44, 1)]);
    scheme(&[36, SEVEN, 39], &[w(44, 1)]);
    scheme(&[37, SEVEN, w(33, 8)], &[w(33, 0)]);
    scheme(&[37, SEVEN, 34, 32], &[w(44, 1)]);
}

#[test]
fn scheme_if0() {
    // 0 takes the second part, every other number the third; the other part may be a wrong.
    scheme(&[38, w(33, 0), SEVEN, w(44, 9)], &[SEVEN]);
    for number in [1, 2, LARGEST] {
        scheme(&[38, w(33, number), w(44, 9), SEVEN], &[SEVEN]);
    }
    // A lambda, nil, and a cons of whatever values: wrong 1, also where a branch has a wrong of its own.
    let values: [&[u32]; 5] = [&[34, 32], &[39], &[40, SEVEN, 39], &[40, w(33, 0), w(33, 0)], &[40, 39, 34, w(44, 9)]];
    for value in values {
        scheme(&[&[38], value, &[SEVEN, SEVEN]].concat(), &[w(44, 1)]);
        scheme(&[&[38], value, &[w(44, 8), w(44, 9)]].concat(), &[w(44, 1)]);
    }
}

#[test]
fn the_test_of_if0_comes_to_a_value_first() {
    // Of a value from ML: a function, the empty list, a sealed value.
    scheme(&[38, 45, 4, 1, 1, 18, 1, 16, SEVEN, SEVEN], &[38, 34, 45, 1, 19, 18, 1, 16, 30, 1, 32, SEVEN, SEVEN]);
    error(&[1], &[30, 1, 38, 45, 4, 1, 1, 18, 1, 16, SEVEN, SEVEN], 1, 3, [0, 1, 2]);
    error(&[1], &[30, 1, 38, 45, 3, 1, 24, 1, SEVEN, SEVEN], 1, 3, [0, 1, 2]);
    error(&[1], &[30, 1, 38, 45, 2, 30, 2, 39, SEVEN, SEVEN], 1, 3, [0, 1, 2]);
    // A list of one number from ML: the cons, the number and its end are converted.
    error(&[1], &[30, 1, 38, 45, 3, 1, 25, 17, 24, 1, SEVEN, SEVEN], 1, 5, [0, 3, 2]);
    // A wrong in the test is raised with its own code; a number that was sealed is a number.
    error(&[1], &[30, 1, 38, w(44, 300), SEVEN, SEVEN], 300, 1, [0, 0, 1]);
    value(&[1], &[30, 1, 38, 45, 2, 30, 2, w(33, 0), SEVEN, 39], 3, [0, 2, 1], &[w(17, 7)]);
}

#[test]
fn scheme_lists_and_tests() {
    for (kind, of_cons) in [(41, SEVEN), (42, 39)] {
        scheme(&[kind, 40, SEVEN, 39], &[of_cons]);
        scheme(&[kind, 39], &[w(44, 4)]);
        scheme(&[kind, SEVEN], &[w(44, 3)]);
        scheme(&[kind, 34, 32], &[w(44, 3)]);
    }
    let values: [&[u32]; 4] = [&[34, 32], &[40, SEVEN, SEVEN], &[39], &[SEVEN]];
    let answers = [[0, 1, 1, 1], [1, 0, 1, 1], [1, 0, 0, 1], [1, 1, 1, 0]];
    for (value, row) in values.iter().zip(answers) {
        for (test, answer) in row.iter().enumerate() {
            scheme(&[&[w(43, test as u32)], *value].concat(), &[w(33, *answer)]);
        }
    }
}

#[test]
fn sm_rules() {
    scheme(&[45, 1, w(17, 7)], &[SEVEN]);
    scheme(&[45, 3, 1, 24, 1], &[39]);
    scheme(&[45, 3, 1, 25, w(17, 7), 24, 1], &[40, 45, 1, w(17, 7), 45, 3, 1, 24, 1]);
    scheme(&[45, 4, 1, 1, 18, 1, 16], &[34, 45, 1, 19, 18, 1, 16, 30, 1, 32]);
    scheme(&[45, 2, 30, 2, 39], &[39]);
}

#[test]
fn order_of_evaluation() {
    // The head of a list is converted before its tail is looked at.
    error(&[3, 1], &[30, 3, 1, 40, 39, SEVEN], 1, 3, [0, 2, 1]);
    // A wrong in the second operand goes before the first operand's fault.
    error(&[1], &[30, 1, 35, 39, w(44, 300)], 300, 1, [0, 0, 1]);
    error(&[1], &[30, 1, 37, 39, w(44, 301)], 301, 1, [0, 0, 1]);
    // A wrong in the first part goes before one in the second.
    error(&[1], &[21, w(29, 7), 1, w(29, 8), 1], 7, 1, [0, 0, 1]);
    // Neither a branch not taken nor a lambda's body is evaluated.
    value(&[1], &[23, 17, w(17, 3), w(29, 8), 1], 1, [0, 0, 1], &[w(17, 3)]);
    value(&[4, 1, 1], &[18, 1, w(29, 8), 1], 0, [0, 0, 0], &[18, 1, w(29, 8), 1]);
}

#[test]
fn spent_goes_before_error_and_full() {
    leaves(&lent(&[1], &[26, 24, 1], 1, 3), ended(End::Spent, 0, 1, 2, 0, [0, 0, 1]), &[w(29, 4), 1]);
    let grows = [20, 18, 1, 21, 16, 16];
    leaves(&lent(&[1], &grows, 0, 6), ended(End::Spent, 0, 0, 6, 0, [0, 0, 0]), &grows);
    leaves(&lent(&[1], &grows, 1, 6), ended(End::Full, 0, 0, 6, 13, [0, 0, 0]), &grows);
    leaves(&lent(&[1], &[w(29, 7), 1], 0, 2), ended(End::Spent, 0, 0, 2, 0, [0, 0, 0]), &[w(29, 7), 1]);
}

#[test]
fn substitution_under_lambdas_of_both_languages() {
    // (fn N (fn N (ms N (sm N v1)))) 4 becomes fn N (ms N (sm N 4)): no lambda of the other language in between.
    steps_to(&[4, 1, 1], &[19, 18, 1, 18, 1, 30, 1, 45, 1, w(16, 1), w(17, 4)], &[18, 1, 30, 1, 45, 1, w(17, 4)]);
    // (fn N (ms L (fn (sm N v1)))) 4: the Scheme lambda is counted.
    steps_to(&[2], &[19, 18, 1, 30, 2, 34, 45, 1, w(16, 1), w(17, 4)], &[30, 2, 34, 45, 1, w(17, 4)]);
}
