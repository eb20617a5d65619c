//! Document 01's table of refusals, each small input and the order among them, written by hand.

use crate::common::*;
use model::file::{bytes_of, file};
use model::{run, Refusal};

#[test]
fn refusal_1_sizes() {
    for bytes in [0, 1, 20, 23, 25, 26, 27, 16_385, 16_388] {
        assert_eq!(refused_bytes(&vec![0; bytes]), (1, 0), "{bytes} bytes");
    }
    assert_eq!(refused_bytes(&[0; 24]), (2, 0));
    assert_eq!(refused_bytes(&[0; 16_384]), (2, 0));
}

#[test]
fn refusal_2_headers() {
    assert_eq!(refused(&[1, 4, 1, 6, 1, 17]), (2, 0));
    assert_eq!(refused(&[0, 4, 2, 4, 1, 17]), (2, 0));
    assert_eq!(refused(&[2, 4, 0, 6, 1, 17]), (2, 0));
    assert_eq!(refused(&[1, 5, 1, 5, 1, 17]), (2, 0));
    assert_eq!(refused(&[1, 4, 2, 5, 1, 17]), (2, 0));
    assert_eq!(refused(&[1, 4, 1, 5, 1, 17, 17]), (2, 0));
}

#[test]
fn refusal_2_sums_do_not_wrap() {
    assert_eq!(refused(&[u32::MAX, 4, 3, 3, 1, 17]), (2, 0));
    assert_eq!(refused(&[u32::MAX, 4, 1, 3, 1, 17]), (2, 0));
    assert_eq!(refused(&[1, 4, u32::MAX, 5, 1, 17]), (2, 0));
    assert_eq!(refused(&[3, 4, u32::MAX, 7, 1, 17]), (2, 0));
    assert_eq!(refused(&[u32::MAX - 4, 4, 7, u32::MAX, 1, 17]), (2, 0));
}

#[test]
fn refusal_3_kinds() {
    assert_eq!(refused(&[1, 4, 1, 5, 1, 99]), (3, 5));
    assert_eq!(refused(&[1, 4, 1, 5, 17, 17]), (3, 4));
    assert_eq!(refused(&[1, 4, 1, 5, 1, 33]), (3, 5));
    assert_eq!(refused(&[1, 4, 1, 5, 1, 1]), (3, 5));
    assert_eq!(refused(&[1, 4, 3, 5, 1, 30, 1, 17]), (3, 7));
}

#[test]
fn refusal_3_operands() {
    assert_eq!(refused(&[1, 4, 1, 5, w(1, 1), 17]), (3, 4));
    assert_eq!(refused(&[1, 4, 3, 5, 1, w(21, 1), 17, 17]), (3, 5));
    assert_eq!(refused(&[1, 4, 2, 5, 1, w(29, 0), 1]), (3, 5));
    assert_eq!(refused(&[1, 4, 2, 5, 1, w(29, 65_536), 1]), (3, 5));
    assert_eq!(refused(&[1, 4, 2, 5, 1, w(29, 65_535), 1]), (0, 0));
    assert_eq!(refused(&[1, 4, 4, 5, 1, 30, 1, w(43, 4), 39]), (3, 7));
    assert_eq!(refused(&[1, 4, 4, 5, 1, 30, 1, w(43, 3), 39]), (0, 0));
}

#[test]
fn refusal_3_words_run_out_or_remain() {
    assert_eq!(refused(&[1, 4, 1, 5, 3, 17]), (3, 5));
    assert_eq!(refused(&[2, 4, 1, 6, 1, 1, 17]), (3, 5));
    assert_eq!(refused(&[1, 4, 2, 5, 1, 21, 17]), (3, 7));
    assert_eq!(refused(&[1, 4, 2, 5, 1, 17, 99]), (3, 6));
}

#[test]
fn refusal_4_nesting() {
    assert_eq!(refused_bytes(&file(&[1], &chain(&[20], 256, &[17]))), (4, 261));
    assert_eq!(refused_bytes(&file(&[1], &chain(&[20], 255, &[17]))), (6, 259));
    assert_eq!(refused_bytes(&file(&chain(&[3], 256, &[1]), &[17])), (4, 260));
    assert_eq!(refused_bytes(&file(&chain(&[3], 255, &[1]), &[17])), (7, 4));
}

#[test]
fn refusal_4_counts_types_among_the_parts() {
    assert_eq!(refused_bytes(&file(&[1], &chain(&[20], 255, &[24, 1]))), (4, 261));
    assert_eq!(refused_bytes(&file(&[1], &chain(&[20], 255, &[18, 1, 17]))), (4, 261));
    assert_eq!(refused_bytes(&file(&[1], &chain(&[20], 254, &[30, 1, 39]))), (6, 258));
}

#[test]
fn refusals_3_and_4_by_the_first_word() {
    assert_eq!(refused_bytes(&file(&[1], &chain(&[20], 256, &[99]))), (3, 261));
    assert_eq!(refused_bytes(&file(&[1], &chain(&[20], 256, &[]))), (3, 261));
    assert_eq!(refused_bytes(&file(&[1], &chain(&[20], 257, &[99]))), (4, 261));
    assert_eq!(refused_bytes(&file(&chain(&[3], 256, &[1, 1]), &[99])), (4, 260));
    assert_eq!(refused_bytes(&file(&[1, 1], &chain(&[20], 256, &[17]))), (3, 5));
}

#[test]
fn refusal_5_scope() {
    assert_eq!(refused(&[1, 4, 1, 5, 1, 16]), (5, 5));
    assert_eq!(refused(&[3, 4, 3, 7, 4, 1, 1, 18, 1, w(16, 1)]), (5, 9));
    // fn N (ms N ((fn v1) 0)): operand 1 lands on the ML lambda and does not skip to another.
    assert_eq!(refused(&[3, 4, 8, 7, 4, 1, 1, 18, 1, 30, 1, 35, 34, w(32, 1), 33]), (5, 13));
    // fn N (ms N ((fn (sm N v1)) 0)): both languages' lambdas are counted.
    assert_eq!(refused(&[3, 4, 10, 7, 4, 1, 1, 18, 1, 30, 1, 35, 34, 45, 1, w(16, 1), 33]), (0, 0));
}

#[test]
fn refusal_5_goes_before_6() {
    assert_eq!(refused(&[1, 4, 4, 5, 1, 21, 24, 1, 16]), (5, 8));
}

#[test]
fn refusal_6_no_type() {
    assert_eq!(refused(&[1, 4, 3, 5, 1, 19, 17, 17]), (6, 5));
    // sm {N} of a number, and the two branches of an if0.
    assert_eq!(refused(&[1, 4, 6, 5, 1, 30, 1, 45, 3, 1, 17]), (6, 7));
    assert_eq!(refused(&[1, 4, 5, 5, 1, 23, 17, 17, 24, 1]), (6, 5));
}

#[test]
fn refusal_7_another_type() {
    assert_eq!(refused(&[1, 4, 1, 5, 2, 17]), (7, 4));
    assert_eq!(refused(&[2, 4, 2, 6, 3, 2, 24, 1]), (7, 5));
}

#[test]
fn refusal_8_capacity() {
    let bytes = file(&[1], &[17]);
    let none = run(&bytes, 1_000_000, 0, 0);
    assert_eq!(none.result, Err(Refusal { number: 8, place: 0 }));
    assert_eq!(run(&bytes, 0, 3, 0).result, Err(Refusal { number: 8, place: 0 }));
    assert_eq!(run(&bytes, 0, 3, 0).first, [0, 0, 0]);
    assert!(run(&bytes, 0, 1, 1).result.is_ok());
    assert_eq!(run(&bytes_of(&[1, 4, 1, 5, 2, 17]), 0, 0, 0).result, Err(Refusal { number: 7, place: 4 }));
}
