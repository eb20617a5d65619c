//! The reduction of the releases before document 02's request U4, and files that they saved, worked out by hand from document
//! 01 as it was, and from U4.

use crate::common::*;
use model::earlier::before_u4;
use model::file::file;
use model::run::run_by;
use model::{on_large_stack, save, End, Run};

/// A run before U4, steps plentiful or not.
fn before(declared: &[u32], term: &[u32], limit: u32) -> Run {
    on_large_stack(|| run_by(before_u4, &file(declared, term), limit, (4096, 4096)))
}

/// "ms N (if0 nil 1 2): 2, 2 steps."
#[test]
fn every_value_other_than_0_took_the_third_part() {
    let value = ended(End::Value, 0, 2, 1, 0, [0, 1, 1]);
    let tests: [&[u32]; 5] = [&[39], &[34, 32], &[40, 39, 39], &[w(33, 1)], &[w(33, 16_777_215)]];
    for test in tests {
        let term = [&[30, 1, 38], test, &[w(33, 1), w(33, 2)]].concat();
        leaves(&before(&[1], &term, 1_000_000), value, &[w(17, 2)]);
    }
    leaves(&before(&[1], &[30, 1, 38, 33, w(33, 1), w(33, 2)], 1_000_000), value, &[w(17, 1)]);
}

/// Other rules that make wrong 1 were as they are, and so was ML's if0.
#[test]
fn the_other_rules_were_the_same() {
    let error = ended(End::Error, 1, 2, 0, 0, [0, 0, 2]);
    leaves(&before(&[1], &[30, 1, 36, 39, 33], 1_000_000), error, &[]);
    leaves(&before(&[1], &[30, 1, 37, 39, 33], 1_000_000), error, &[]);
    leaves(&before(&[1], &[30, 1, 39], 1_000_000), ended(End::Error, 1, 2, 0, 0, [0, 1, 1]), &[]);
    let value = ended(End::Value, 0, 1, 1, 0, [0, 0, 1]);
    leaves(&before(&[1], &[23, 17, w(17, 1), w(17, 2)], 1_000_000), value, &[w(17, 1)]);
    leaves(&before(&[1], &[23, w(17, 3), w(17, 1), w(17, 2)], 1_000_000), value, &[w(17, 2)]);
}

/// (add 12 (ms N (app (fn (if0 v0 0 (add (hd v0) 1))) (cons 5 nil)))): the list is tested and not whether it is empty.
const TESTED: [u32; 16] = [21, w(17, 12), 30, 1, 35, 34, 38, 32, w(33, 0), 36, 41, 32, w(33, 1), 40, w(33, 5), 39];

/// What a run before U4 leaves after so many steps, as the file that it saved.
fn saved_before(steps: u32) -> Vec<u32> {
    let run = before(&[1], &TESTED, steps);
    let left = run.result.expect("accepted").left as usize;
    let saved = on_large_stack(|| save(&[1], &run.first[..left], 16_384));
    assert_eq!(saved.result, Ok(20 + 4 * left));
    run.first[..left].to_vec()
}

/// "A file saved before the change is read and continued under the new reduction from the term it holds."
#[test]
fn a_file_saved_before_goes_on_under_the_reduction_of_today() {
    leaves(&before(&[1], &TESTED, 1_000_000), ended(End::Value, 0, 6, 1, 0, [1, 1, 4]), &[w(17, 18)]);
    // Saved before the test: the application, the if0 and the error's own step are left, or the last two.
    error(&[1], &saved_before(0), 1, 3, [1, 0, 2]);
    let tested = saved_before(1);
    assert_eq!(tested, [21, w(17, 12), 30, 1, 38, 40, w(33, 5), 39, 33, 36, 41, 40, w(33, 5), 39, w(33, 1)]);
    leaves(&before(&[1], &tested, 1_000_000), ended(End::Value, 0, 5, 1, 0, [0, 1, 4]), &[w(17, 18)]);
    error(&[1], &tested, 1, 2, [0, 0, 2]);
    // Saved after it: a term that the recipe no longer comes to. hd, the sum, ms and the sum in ML are left.
    value(&[1], &saved_before(2), 4, [0, 1, 3], &[w(17, 18)]);
}
