//! Planted errors in the file that a save writes, and in what it leaves, are found and shrunk; the model itself shows no
//! difference.

use crate::common::saving::*;
use model::on_large_stack;
use std::cell::RefCell;
use std::mem::size_of;
use tools::compare::save::PAIRS;
use tools::compare::{compare_save, missing};
use tools::engine::{RecipeSaved, Save};
use tools::stand_in::save as right_save;

#[test]
fn no_difference_from_itself_and_all_reached() {
    let counts = on_large_stack(|| compare_save(RIGHT, PLAN)).expect("no difference");
    // The plan of these tests is too short for as many pairs as the gate's.
    assert_eq!(missing(&counts.rows()), [format!("{PAIRS} pairs in the same capacity, so many times")]);
    assert!(counts.saves > 150_000 && counts.pairs > 2_000, "{} {}", counts.saves, counts.pairs);
}

#[test]
fn the_struct_is_laid_out_as_the_header_declares_it() {
    assert_eq!(size_of::<RecipeSaved>(), 12);
}

#[test]
fn the_declared_type_left_out_of_the_length() {
    // Of the bytes told, and of the test of 12.
    let told: Save = |declared, term, out| {
        let saved = right_save(declared, term, out);
        let bytes = saved.bytes.saturating_sub(4 * declared.len() as u32);
        RecipeSaved { bytes, ..saved }
    };
    answers(told, "saved, 24 bytes", "saved, 20 bytes");
    let tested: Save = |declared, term, out| match right_save(declared, term, out) {
        saved if saved.refusal == 12 && 4 * (4 + term.len()) <= 16_384 => refused(13, 0, out),
        saved => saved,
    };
    answers(tested, "refused 12 at place 0", "refused 13 at place 0");
}

#[test]
fn words_with_their_highest_byte_first() {
    let save: Save =
        |declared, term, out| changed(declared, term, out, |file| file.chunks_mut(4).for_each(|word| word.reverse()));
    let text = answers(save, "saved, 24 bytes", "saved, 24 bytes");
    assert!(text.contains("buffer: 1 0 0 0 4 0 0 0 ") && text.contains("buffer: 0 0 0 1 0 0 0 4 "), "{text}");
}

/// The right save, with a word of the header changed by one if a file is written.
fn header<const WORD: usize>(declared: &[u32], term: &[u32], out: &mut [u8]) -> RecipeSaved {
    changed(declared, term, out, |file| {
        if let Some(byte) = file.get_mut(4 * WORD) {
            *byte = byte.wrapping_add(1);
        }
    })
}

#[test]
fn a_wrong_word_of_the_header() {
    for save in [header::<0> as Save, header::<1>, header::<2>, header::<3>] {
        answers(save, "saved, 24 bytes", "saved, 24 bytes");
    }
}

#[test]
fn a_term_offset_without_the_type() {
    let save: Save = |declared, term, out| {
        changed(declared, term, out, |file| {
            if let Some(word) = file.get_mut(12..16) {
                word.copy_from_slice(&5_u32.to_le_bytes());
            }
        })
    };
    // A type of one word does not show it.
    answers(save, "saved, 32 bytes", "saved, 32 bytes");
}

#[test]
fn counts_of_type_and_term_exchanged() {
    let save: Save = |declared, term, out| {
        changed(declared, term, out, |file| {
            if file.len() > 12 {
                (0..4).for_each(|at| file.swap(at, 8 + at));
            }
        })
    };
    answers(save, "saved, ", "saved, ");
}

#[test]
fn the_term_before_the_type() {
    let save: Save = |declared, term, out| {
        changed(declared, term, out, |file| {
            if let Some(words) = file.get_mut(16..) {
                words.rotate_left(4 * declared.len());
            }
        })
    };
    let text = answers(save, "saved, 24 bytes", "saved, 24 bytes");
    assert!(text.contains(" 5 0 0 0 1 0 0 0 17 0 0 0\n") && text.contains(" 5 0 0 0 17 0 0 0 1 0 0 0\n"), "{text}");
}

#[test]
fn an_older_term() {
    thread_local!(static BEFORE: RefCell<Vec<u8>> = const { RefCell::new(Vec::new()) });
    let save: Save = |declared, term, out| {
        changed(declared, term, out, |file| {
            let before = BEFORE.replace(file.to_vec());
            if before.len() == file.len() && !file.is_empty() {
                file.copy_from_slice(&before);
            }
        })
    };
    let text = shown(tools::compare::SavingEngine { save, ..RIGHT });
    assert!(text.contains("model:\n  saved, ") && text.contains("engine:\n  saved, "), "{text}");
}

#[test]
fn a_last_word_that_is_not_written() {
    let save: Save = |declared, term, out| {
        changed(declared, term, out, |file| {
            if let Some(at) = file.len().checked_sub(4) {
                file[at..].fill(0);
            }
        })
    };
    answers(save, "saved, 24 bytes", "saved, 24 bytes");
}

/// The right save, which keeps the last byte of the buffer where the answer asks for it.
fn kept(declared: &[u32], term: &[u32], out: &mut [u8], keeps: fn(&RecipeSaved) -> bool) -> RecipeSaved {
    let last = out.last().copied();
    let saved = right_save(declared, term, out);
    if let (Some(last), Some(byte), true) = (last, out.last_mut(), keeps(&saved)) {
        *byte = last;
    }
    saved
}

#[test]
fn a_buffer_kept_after_a_refusal() {
    let any: Save = |declared, term, out| kept(declared, term, out, |saved| saved.refusal != 0);
    let long: Save = |declared, term, out| kept(declared, term, out, |saved| saved.refusal == 12);
    let short: Save = |declared, term, out| kept(declared, term, out, |saved| saved.refusal == 13);
    for (save, refusal) in [(any, ""), (long, "12"), (short, "13")] {
        let text = answers(save, &format!("refused {refusal}"), &format!("refused {refusal}"));
        assert!(text.contains("  buffer: 0\n"), "{text}");
    }
}

#[test]
fn the_rest_of_the_buffer_kept_behind_the_file() {
    let save: Save =
        |declared, term, out| kept(declared, term, out, |saved| saved.refusal == 0 && saved.bytes % 8 == 0);
    let short: Save = |declared, term, out| {
        let held = out.to_vec();
        let saved = right_save(declared, term, out);
        // All that is behind the file stays as it was.
        if saved.refusal == 0 {
            out[saved.bytes as usize..].copy_from_slice(&held[saved.bytes as usize..]);
        }
        saved
    };
    for save in [save, short] {
        answers(save, "saved, ", "saved, ");
    }
}

#[test]
fn a_file_written_as_far_as_the_buffer_goes() {
    let save: Save = |declared, term, out| {
        let saved = right_save(declared, term, out);
        if saved.refusal == 13 {
            let file = model::file::file(declared, term);
            out.copy_from_slice(&file[..out.len()]);
        }
        saved
    };
    answers(save, "refused 13 at place 0", "refused 13 at place 0");
}

#[test]
fn a_buffer_compared_in_words() {
    // A byte, two or three too few are taken for a whole word.
    let save: Save = |declared, term, out| match right_save(declared, term, out) {
        saved if saved.refusal == 13 && out.len().div_ceil(4) * 4 >= bytes(declared, term) => {
            let file = model::file::file(declared, term);
            out.copy_from_slice(&file[..out.len()]);
            RecipeSaved { refusal: 0, place: 0, bytes: file.len() as u32 }
        }
        saved => saved,
    };
    answers(save, "refused 13 at place 0", "saved, 24 bytes");
}
