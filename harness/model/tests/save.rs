//! Save and go on: files, refusals and their places, and runs that go on, worked out by hand from document 02's request U3.

use crate::common::*;
use model::file::{bytes_of, file};
use model::laws::{try_going_on, WentOn};
use model::{on_large_stack, save, End, Refusal, Saved};

/// The refusal's number and place of a save with so much room; the buffer is then all zero.
fn unsaved_in(declared: &[u32], term: &[u32], room: usize) -> (u32, u32) {
    on_large_stack(|| {
        let Saved { result, buffer } = save(declared, term, room);
        let refusal = result.expect_err("a refusal");
        assert!(buffer == vec![0; room]);
        (refusal.number, refusal.place)
    })
}

/// The same with room for every file.
fn unsaved(declared: &[u32], term: &[u32]) -> (u32, u32) {
    unsaved_in(declared, term, 16_384)
}

/// A save with so much room writes this file, and zeros behind it.
fn saves(declared: &[u32], term: &[u32], room: usize, due: &[u8]) {
    let Saved { result, buffer } = on_large_stack(|| save(declared, term, room));
    assert_eq!(result, Ok(due.len()));
    assert!(buffer.len() == room && buffer[..due.len()] == *due && buffer[due.len()..].iter().all(|&byte| byte == 0));
}

/// "add 2 3" of type N: 1 4 3 5, the type, the term, each word with its lowest byte first.
const ADD: [u8; 32] = [
    1, 0, 0, 0, 4, 0, 0, 0, 3, 0, 0, 0, 5, 0, 0, 0, // the header
    1, 0, 0, 0, 21, 0, 0, 0, 17, 2, 0, 0, 17, 3, 0, 0,
];

#[test]
fn a_file_stands_first_and_zeros_behind_it() {
    for room in [32, 33, 36, 1_000] {
        saves(&[1], &[21, w(17, 2), w(17, 3)], room, &ADD);
    }
    // A term of five words behind a type of two begins at word 6.
    saves(&[3, 1], &[25, 17, 27, 24, 1], 44, &bytes_of(&[2, 4, 5, 6, 3, 1, 25, 17, 27, 24, 1]));
    // Every byte of a word, the lowest first.
    let number = [1, 0, 0, 0, 17, 0xef, 0xcd, 0xab];
    saves(&[1], &[w(17, 0x00ab_cdef)], 24, &[&[1, 0, 0, 0, 4, 0, 0, 0, 1, 0, 0, 0, 5, 0, 0, 0][..], &number].concat());
}

#[test]
fn refusal_13_in_bytes() {
    let term = [21, w(17, 2), w(17, 3)];
    for room in [0, 1, 8, 24, 28, 31] {
        assert_eq!(unsaved_in(&[1], &term, room), (13, 0), "{room}");
    }
}

#[test]
fn refusal_12_in_bytes_from_the_lengths_alone() {
    // A sum of 2,046 leaves has 4,091 words: with the type 4,092, and a file of 16,384 bytes.
    let most = balanced(21, 17, 2_046);
    saves(&[1], &most, 16_384, &file(&[1], &most));
    assert_eq!(unsaved(&[3, 1], &most), (12, 0));
    assert_eq!(unsaved(&[1], &balanced(21, 17, 2_047)), (12, 0));
    // The type alone, and the term alone; whatever the words are.
    assert_eq!(unsaved(&balanced(4, 1, 2_046), &[17]), (7, 4));
    assert_eq!(unsaved(&balanced(4, 1, 2_047), &[]), (12, 0));
    assert_eq!(unsaved(&[99; 4_092], &[]), (3, 4));
    assert_eq!(unsaved(&[99; 4_093], &[]), (12, 0));
    assert_eq!(unsaved(&[], &[99; 4_092]), (3, 4));
    assert_eq!(unsaved(&[], &[99; 4_093]), (12, 0));
    assert_eq!(unsaved(&[1], &vec![17; 1 << 20]), (12, 0));
}

#[test]
fn refusal_3_with_places_in_the_file_to_be_written() {
    assert_eq!(unsaved(&[99], &[17]), (3, 4));
    assert_eq!(unsaved(&[3, 99], &[17]), (3, 5));
    assert_eq!(unsaved(&[1], &[99]), (3, 5));
    assert_eq!(unsaved(&[3, 1], &[25, 17, 99]), (3, 8));
    // The type's words run out or remain, and so do the term's.
    assert_eq!(unsaved(&[3, 3], &[17]), (3, 6));
    assert_eq!(unsaved(&[1, 1], &[17]), (3, 5));
    assert_eq!(unsaved(&[1], &[21, 17]), (3, 7));
    assert_eq!(unsaved(&[1], &[17, 17]), (3, 6));
    // A word of a type where a term is due, and of a term where a type is.
    assert_eq!(unsaved(&[1], &[1]), (3, 5));
    assert_eq!(unsaved(&[17], &[17]), (3, 4));
}

#[test]
fn empty_words_run_out() {
    assert_eq!(unsaved(&[], &[17]), (3, 4));
    assert_eq!(unsaved(&[], &[]), (3, 4));
    assert_eq!(unsaved(&[1], &[]), (3, 5));
    assert_eq!(unsaved(&[4, 1, 1], &[]), (3, 7));
}

#[test]
fn refusal_4_with_its_place() {
    // 256 fixes around a number: the first word too deep is the 257th, at 5 + 256.
    assert_eq!(unsaved(&[1], &chain(&[20], 256, &[17])), (4, 261));
    assert_eq!(unsaved(&[3, 1], &chain(&[20], 256, &[17])), (4, 262));
    assert_eq!(unsaved(&chain(&[3], 256, &[1]), &[17]), (4, 260));
    // At one word 3 comes before 4; else the first word counts, the type's before the term's.
    assert_eq!(unsaved(&[1], &chain(&[20], 256, &[99])), (3, 261));
    assert_eq!(unsaved(&[1], &chain(&[20], 257, &[99])), (4, 261));
    assert_eq!(unsaved(&[1, 1], &chain(&[20], 256, &[17])), (3, 5));
    assert_eq!(unsaved(&chain(&[3], 256, &[1]), &[99]), (4, 260));
    assert_eq!(unsaved(&chain(&[3], 256, &[1]), &[]), (4, 260));
}

#[test]
fn refusals_5_to_7() {
    assert_eq!(unsaved(&[1], &[16]), (5, 5));
    assert_eq!(unsaved(&[4, 1, 1], &[18, 1, w(16, 1)]), (5, 9));
    assert_eq!(unsaved(&[1], &[19, 17, 17]), (6, 5));
    assert_eq!(unsaved(&[2], &[17]), (7, 4));
    // 5 before 6, and both before 7.
    assert_eq!(unsaved(&[2], &[21, 24, 1, 16]), (5, 8));
    assert_eq!(unsaved(&[2], &[19, 17, 17]), (6, 5));
}

#[test]
fn refusal_13_after_all_others() {
    assert_eq!(unsaved_in(&[99], &[17], 0), (3, 4));
    assert_eq!(unsaved_in(&[1], &chain(&[20], 256, &[17]), 0), (4, 261));
    assert_eq!(unsaved_in(&[1], &[16], 0), (5, 5));
    assert_eq!(unsaved_in(&[1], &[19, 17, 17], 0), (6, 5));
    assert_eq!(unsaved_in(&[2], &[17], 0), (7, 4));
    assert_eq!(unsaved_in(&[1; 4_093], &[17], 0), (12, 0));
    assert_eq!(unsaved_in(&[1], &[17], 23), (13, 0));
}

/// What becomes of a recipe that runs, is saved with room for every file, and goes on.
fn went_on(declared: &[u32], term: &[u32], limits: [u32; 2], capacity: usize) -> WentOn {
    let bytes = file(declared, term);
    on_large_stack(|| try_going_on(&bytes, limits, [capacity, capacity + 1], 16_384)).expect("the law holds")
}

/// Document 01's wrapped function applied to 7: 8 words, then 12, and a value after 5 steps.
const WRAPPED: [u32; 8] = [19, 30, 4, 1, 1, 34, 32, w(17, 7)];

#[test]
fn a_run_goes_on_where_it_was() {
    for limit in 0..5 {
        assert_eq!(went_on(&[1], &WRAPPED, [limit, 5 - limit], 12), WentOn::Ended(End::Spent, End::Value));
        assert_eq!(went_on(&[1], &WRAPPED, [limit, u32::MAX - limit], 99), WentOn::Ended(End::Spent, End::Value));
    }
    for (limit, more) in [(0, 4), (1, 3), (2, 1), (3, 1)] {
        assert_eq!(went_on(&[1], &WRAPPED, [limit, more], 12), WentOn::Ended(End::Spent, End::Spent));
    }
    assert_eq!(went_on(&[1], &WRAPPED, [5, 1], 12), WentOn::NothingLeft);
    // hd of nil: a step to the wrong, and its own.
    assert_eq!(went_on(&[1], &[26, 24, 1], [1, 1], 9), WentOn::Ended(End::Spent, End::Error));
    assert_eq!(went_on(&[1], &[26, 24, 1], [2, 1], 9), WentOn::NothingLeft);
}

#[test]
fn a_full_run_is_full_again_in_the_same_capacity() {
    assert_eq!(went_on(&[1], &WRAPPED, [0, 1], 11), WentOn::Ended(End::Spent, End::Full));
    assert_eq!(went_on(&[1], &WRAPPED, [1, 1], 11), WentOn::Ended(End::Full, End::Full));
    assert_eq!(went_on(&[1], &WRAPPED, [1, u32::MAX - 1], 11), WentOn::Ended(End::Full, End::Full));
    assert_eq!(went_on(&[1], &WRAPPED, [1, 1], 7), WentOn::NothingLeft);
}

/// fix (fn N (add 1 v0)): each step puts an add around it, 6 words at first and 2 more each time.
const NESTS: [u32; 6] = [20, 18, 1, 21, w(17, 1), 16];

#[test]
fn the_save_of_a_deep_run_is_refused_by_4() {
    // After 252 steps the fix stands at level 253, and the innermost words, those of the add in it, at 256.
    for limit in [251, 252] {
        assert_eq!(went_on(&[1], &NESTS, [limit, 1], 4_096), WentOn::Ended(End::Spent, End::Spent));
    }
    // 253 adds with their ones come before the fix, at 5 + 506; its lambda, type, add and the add's first part follow.
    let WentOn::Unsaved(refusal) = went_on(&[1], &NESTS, [253, 1], 4_096) else { panic!("a refusal") };
    assert_eq!((refusal.number, refusal.place), (4, 5 + 506 + 4));
    let WentOn::Unsaved(refusal) = went_on(&[1], &NESTS, [1_000, 1], 4_096) else { panic!("a refusal") };
    assert_eq!(refusal.number, 4);
}

/// (app (fn {{N}} (cons v0 (cons v0 (nil {{N}})))) LIST) behind some words: the next term has the list's words twice, and
/// 6 others for the application.
fn doubled(before: &[u32]) -> Vec<u32> {
    // 88 rows of ten numbers have 23 words each, one of six 15, and the end 3: 2,042.
    let row = |numbers: usize| [vec![25], [25, w(17, 1)].repeat(numbers), vec![24, 1]].concat();
    let list = [row(10).repeat(88), row(6), vec![24, 3, 1]].concat();
    assert_eq!(list.len(), 2_042);
    [before, &[19, 18, 3, 3, 1, 25, 16, 25, 16, 24, 3, 3, 1], &list].concat()
}

#[test]
fn the_save_of_a_large_run_is_refused_by_12() {
    // null? of the two lists: 1 + 6 + 2 x 2,042 words, with the type 4,092. null? of their tl: one word more.
    let (fits, over) = (doubled(&[28]), doubled(&[28, 27]));
    assert_eq!(lent(&[1], &fits, 1, 16_384).result.map(|ended| ended.left), Ok(4_091));
    assert_eq!(went_on(&[1], &fits, [1, 1], 16_384), WentOn::Ended(End::Spent, End::Value));
    assert_eq!(went_on(&[1], &over, [1, 1], 16_384), WentOn::Unsaved(Refusal::new(12, 0)));
    // Before that step and after the next it can be saved.
    assert_eq!(went_on(&[1], &over, [0, 3], 16_384), WentOn::Ended(End::Spent, End::Value));
    assert_eq!(went_on(&[1], &over, [2, 1], 16_384), WentOn::Ended(End::Spent, End::Value));
}

#[test]
fn the_save_of_a_run_is_refused_by_13_alone_where_a_byte_is_missing() {
    // 12 words of the term after a step, one of the type, four of the header.
    let bytes = file(&[1], &WRAPPED);
    let with_room =
        |room: usize| on_large_stack(|| try_going_on(&bytes, [1, 1], [12, 12], room)).expect("the law holds");
    assert_eq!(with_room(68), WentOn::Ended(End::Spent, End::Spent));
    assert_eq!(with_room(67), WentOn::Unsaved(Refusal::new(13, 0)));
}
