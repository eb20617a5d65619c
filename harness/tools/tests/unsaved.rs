//! Planted errors in the refusals of a save, their places and their order are found and shrunk.

use crate::common::saving::*;
use model::check::read_words;
use model::on_large_stack;
use tools::compare::save::{edges, faults};
use tools::engine::{RecipeSaved, Save};
use tools::stand_in::save as right_save;

#[test]
fn of_every_choice_of_faults_the_first_in_the_order_is_given() {
    on_large_stack(|| {
        let mut choices = 0;
        for faults in faults::every() {
            let given = faults::case(faults).by_model().result.err().map(|refusal| refusal.number);
            assert_eq!(given, faults.due());
            choices += 1;
        }
        assert_eq!(choices, 2 * 128);
    });
}

#[test]
fn the_largest_files_are_accepted_but_for_their_size() {
    on_large_stack(|| {
        let sizes: Vec<usize> = edges::largest_files().iter().map(|case| case.file_bytes()).collect();
        assert!([16_380, 16_384, 16_388].iter().all(|size| sizes.contains(size)), "{sizes:?}");
        assert!(edges::largest_files().iter().all(|case| case.in_order()));
    });
}

#[test]
fn refusal_13_before_3_to_7() {
    let save: Save = |declared, term, out| match right_save(declared, term, out) {
        saved if saved.refusal != 12 && out.len() < bytes(declared, term) => refused(13, 0, out),
        saved => saved,
    };
    answers(save, "refused ", "refused 13 at place 0");
}

/// The right save, which gives 13 in the place of one refusal where the buffer is too short.
fn short_before<const REFUSAL: u32>(declared: &[u32], term: &[u32], out: &mut [u8]) -> RecipeSaved {
    match right_save(declared, term, out) {
        saved if saved.refusal == REFUSAL && out.len() < bytes(declared, term) => refused(13, 0, out),
        saved => saved,
    }
}

/// The right save, which gives a refusal in the place of 12.
fn long_after<const REFUSAL: u32>(declared: &[u32], term: &[u32], out: &mut [u8]) -> RecipeSaved {
    let saved = right_save(declared, term, out);
    let other = || {
        let checked = read_words(declared, term, 256).and_then(model::check::judged);
        let short = out.len() < bytes(declared, term);
        checked.map_or_else(|refusal| refusal.number, |_| if short { 13 } else { 0 })
    };
    match saved.refusal == 12 && other() == REFUSAL {
        true => refused(REFUSAL, 0, out),
        false => saved,
    }
}

/// Whether a choice of faults shows a wrong order; all choices are part of the comparison.
fn shows_in_the_faults(save: Save) -> bool {
    on_large_stack(|| faults::every().any(|faults| faults::case(faults).differs(save)))
}

#[test]
fn refusal_13_before_each_of_the_others() {
    let saves: [(u32, Save); 6] = [
        (3, short_before::<3>),
        (4, short_before::<4>),
        (5, short_before::<5>),
        (6, short_before::<6>),
        (7, short_before::<7>),
        (12, short_before::<12>),
    ];
    for (number, save) in saves {
        assert!(shows_in_the_faults(save), "13 before {number}");
    }
}

#[test]
fn refusal_12_after_each_of_the_others() {
    let saves: [(u32, Save); 6] = [
        (3, long_after::<3>),
        (4, long_after::<4>),
        (5, long_after::<5>),
        (6, long_after::<6>),
        (7, long_after::<7>),
        (13, long_after::<13>),
    ];
    for (number, save) in saves {
        assert!(shows_in_the_faults(save), "12 after {number}");
    }
    answers(long_after::<3>, "refused 12 at place 0", "refused 3 at place 0");
}

#[test]
fn a_file_of_16384_bytes_refused() {
    let save: Save = |declared, term, out| match bytes(declared, term) >= 16_384 {
        true => refused(12, 0, out),
        false => right_save(declared, term, out),
    };
    let text = save_shown(save);
    assert!(text.contains("engine:\n  refused 12 at place 0") && !text.contains("model:\n  refused 12"), "{text}");
}

#[test]
fn a_file_of_16388_bytes_judged_by_its_words() {
    let save: Save = |declared, term, out| match bytes(declared, term) {
        16_388 => match read_words(declared, term, 256) {
            Err(refusal) => refused(refusal.number, refusal.place as usize, out),
            Ok(_) => refused(13, 0, out),
        },
        _ => right_save(declared, term, out),
    };
    answers(save, "refused 12 at place 0", "refused ");
}

#[test]
fn places_that_are_not_those_of_the_file() {
    // Counted as if the type had one word; from the term's first word; and of the words handed over, without the header.
    let one_word: Save = |declared, term, out| match right_save(declared, term, out) {
        saved
            if matches!(saved.refusal, 3..=5) && saved.place as usize >= 4 + declared.len() && !declared.is_empty() =>
        {
            RecipeSaved { place: saved.place + 1 - declared.len() as u32, ..saved }
        }
        saved => saved,
    };
    let text = save_shown(one_word);
    assert!(
        text.contains("model:\n  refused ") && text.contains("at place 6") && text.contains("at place 5"),
        "{text}"
    );
    let in_term: Save = |declared, term, out| match right_save(declared, term, out) {
        saved if saved.refusal == 5 => RecipeSaved { place: saved.place - 4 - declared.len() as u32, ..saved },
        saved => saved,
    };
    answers(in_term, "refused 5 at place 5", "refused 5 at place 0");
    let without_header: Save = |declared, term, out| match right_save(declared, term, out) {
        saved if matches!(saved.refusal, 3..=5) => RecipeSaved { place: saved.place - 4, ..saved },
        saved => saved,
    };
    answers(without_header, "refused 3 at place 4", "refused 3 at place 0");
}

/// The right save, which tells a place with a refusal that has none.
fn placed<const REFUSAL: u32>(declared: &[u32], term: &[u32], out: &mut [u8]) -> RecipeSaved {
    match right_save(declared, term, out) {
        saved if saved.refusal == REFUSAL => RecipeSaved { place: 4 + declared.len() as u32, ..saved },
        saved => saved,
    }
}

#[test]
fn places_told_with_refusals_that_have_none() {
    let saves: [(u32, Save); 2] = [(12, placed::<12>), (13, placed::<13>)];
    for (number, save) in saves {
        answers(save, &format!("refused {number} at place 0"), &format!("refused {number} at place "));
    }
}

#[test]
fn bytes_told_after_a_refusal() {
    let save: Save = |declared, term, out| match right_save(declared, term, out) {
        saved if saved.refusal == 13 => RecipeSaved { bytes: bytes(declared, term) as u32, ..saved },
        saved => saved,
    };
    answers(save, "refused 13 at place 0, 0 bytes", "refused 13 at place 0, 24 bytes");
}

#[test]
fn a_buffer_that_is_just_long_enough_refused() {
    let save: Save = |declared, term, out| match right_save(declared, term, out) {
        saved if saved.refusal == 0 && out.len() == bytes(declared, term) => refused(13, 0, out),
        saved => saved,
    };
    answers(save, "saved, 24 bytes", "refused 13 at place 0");
}

#[test]
fn a_length_of_the_buffer_in_words_taken_for_bytes() {
    let save: Save = |declared, term, out| match right_save(declared, term, out) {
        saved if saved.refusal == 0 && out.len() / 4 < bytes(declared, term) => refused(13, 0, out),
        saved => saved,
    };
    answers(save, "saved, 24 bytes", "refused 13 at place 0");
}

#[test]
fn empty_words_refused_otherwise() {
    let header: Save = |declared, term, out| match declared.is_empty() || term.is_empty() {
        true if bytes(declared, term) <= 16_384 => refused(2, 0, out),
        _ => right_save(declared, term, out),
    };
    answers(header, "refused 3 at place 4", "refused 2 at place 0");
    // An empty term is looked for before the type.
    let term_first: Save = |declared, term, out| match right_save(declared, term, out) {
        saved if saved.refusal != 12 && term.is_empty() => refused(3, 4 + declared.len(), out),
        saved => saved,
    };
    answers(term_first, "refused ", "refused 3 at place ");
}

#[test]
fn the_term_looked_at_before_the_type() {
    let save: Save = |declared, term, out| {
        let saved = right_save(declared, term, out);
        let in_type = matches!(saved.refusal, 3 | 4) && (saved.place as usize) < 4 + declared.len();
        match model::read::read_ml(term, 4 + declared.len(), 256) {
            Err(refusal) if in_type => refused(refusal.number, refusal.place as usize, out),
            _ => saved,
        }
    };
    answers(save, "refused ", "refused ");
}

#[test]
fn nesting_tested_before_the_kind_or_at_another_level() {
    let first: Save = |declared, term, out| match right_save(declared, term, out) {
        saved if saved.refusal == 3 && saved.place >= 261 => RecipeSaved { refusal: 4, ..saved },
        saved => saved,
    };
    let text = save_shown(first);
    assert!(text.contains("model:\n  refused 3 at place 26") && text.contains("engine:\n  refused 4"), "{text}");
    let later: Save = |declared, term, out| match right_save(declared, term, out) {
        saved if saved.refusal == 4 => match read_words(declared, term, 257) {
            Err(refusal) => refused(refusal.number, refusal.place as usize, out),
            Ok(_) => refused(6, 0, out),
        },
        saved => saved,
    };
    answers(later, "refused 4 at place 26", "refused ");
}

/// The right save, which leaves out a condition and writes the file.
fn without<const REFUSAL: u32>(declared: &[u32], term: &[u32], out: &mut [u8]) -> RecipeSaved {
    let saved = right_save(declared, term, out);
    let file = model::file::file(declared, term);
    if saved.refusal != REFUSAL || file.len() > out.len() {
        return saved;
    }
    out[..file.len()].copy_from_slice(&file);
    RecipeSaved { refusal: 0, place: 0, bytes: file.len() as u32 }
}

#[test]
fn a_condition_left_out() {
    let saves: [(u32, Save); 6] = [
        (3, without::<3>),
        (4, without::<4>),
        (5, without::<5>),
        (6, without::<6>),
        (7, without::<7>),
        (12, without::<12>),
    ];
    for (number, save) in saves {
        answers(save, &format!("refused {number} at place "), "saved, ");
    }
}
