//! Recipes in which if0 tests each kind of value, one after another.

use super::text::file_of_text;

/// Tests: numbers, other values, the same from ML, and terms that come to a value or to a wrong.
const TESTS: [&str; 24] = [
    "0",
    "1",
    "16777215",
    "nil",
    "(fn v0)",
    "(cons 0 nil)",
    "(cons 0 0)",
    "(cons (cons nil nil) (fn v0))",
    "(sm N 0)",
    "(sm N 3)",
    "(sm {N} (nil N))",
    "(sm {N} (cons 0 (nil N)))",
    "(sm (N to N) (fn N v0))",
    "(sm L (ms L 0))",
    "(sm L (ms L 7))",
    "(sm L (ms L nil))",
    "(sm L (ms L (fn v0)))",
    "(sm L (ms L (cons 0 nil)))",
    "(null? nil)",
    "(tl (cons 1 nil))",
    "(app (fn v0) nil)",
    "(if0 nil 0 0)",
    "(hd nil)",
    "(wrong 300)",
];

/// The second and the third part: numbers, wrongs and other values.
const BRANCHES: [&str; 3] = ["1 2", "(wrong 301) (wrong 302)", "nil (fn v0)"];

/// What stands around an if0: a conversion at each type, and sums of both languages.
const AROUND: [[&str; 2]; 5] = [
    ["N (ms N ", ")"],
    ["L (ms L ", ")"],
    ["{N} (ms {N} ", ")"],
    ["(N to N) (ms (N to N) ", ")"],
    ["N (add 1 (ms N (add 1 ", ")))"],
];

/// Tests of ML, where a value that is no number has no type: numbers, and terms that come to a number or to a wrong.
const ML_TESTS: [&str; 7] = ["0", "1", "16777215", "(ms N 0)", "(ms N 7)", "(ms N nil)", "(wrong 300 N)"];

/// Every test of Scheme with every two branches in every place, and every test of ML.
pub fn every_test() -> Vec<Vec<u8>> {
    let if0s = TESTS.iter().flat_map(|test| BRANCHES.map(|branches| format!("(if0 {test} {branches})")));
    let scheme = if0s.flat_map(|if0| AROUND.map(|[open, close]| format!("{open}{if0}{close}")));
    let ml =
        ML_TESTS.iter().flat_map(|test| ["1 2", "(wrong 301 N) (wrong 302 N)"].map(|b| format!("N (if0 {test} {b})")));
    scheme.chain(ml).map(|text| file_of_text(&text)).collect()
}
