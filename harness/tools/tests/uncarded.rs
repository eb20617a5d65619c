//! Planted errors in refusal 14, its order, the ends without a card, and what they leave are found.

use crate::common::carding::*;
use model::on_large_stack;
use tools::compare::card::faults;
use tools::compare::CardingEngine;
use tools::engine::{Card, RecipeCard, RecipePrices};
use tools::stand_in::{card as right_card, price as right_price};

#[test]
fn of_every_choice_of_faults_the_first_in_the_order_is_given() {
    on_large_stack(|| {
        let mut choices = 0;
        for faults in faults::every() {
            let given = faults::case(faults).by_model().priced.run.result.err().map(|refusal| refusal.number);
            assert_eq!(given, faults.due());
            choices += 1;
        }
        assert_eq!(choices, 2 * 4_096);
    });
}

#[test]
fn a_buffer_of_just_the_card_refused() {
    let engine: Card = |p, f, l, a, b, c| match right_card(p, f, l, a, b, c) {
        told if told.bytes > 0 && told.bytes as usize == c.len() => refused(14, a, b, c),
        told => told,
    };
    let text = answers(engine, "value (end 0)", "refused 14 at place 0");
    assert!(text.contains("card buffer of 41 bytes\n"), "{text}");
}

#[test]
fn a_buffer_that_would_not_serve_every_card_refused() {
    let engine: Card = |p, f, l, a, b, c| match right_card(p, f, l, a, b, c) {
        told if told.bytes > 0 && c.len() < 410 => refused(14, a, b, c),
        told => told,
    };
    answers(engine, "value (end 0)", "refused 14 at place 0");
}

/// A buffer that is too short by so many bytes or fewer has a card that is cut off.
fn cut_off<const BYTES: usize>(
    prices: &RecipePrices,
    file: &[u8],
    limit: u32,
    first: &mut [u32],
    second: &mut [u32],
    card: &mut [u8],
) -> RecipeCard {
    let told = right_card(prices, file, limit, first, second, card);
    let mut longer = vec![0; card.len() + BYTES];
    if told.priced.run.refusal != 14 {
        return told;
    }
    match right_card(prices, file, limit, first, second, &mut longer) {
        whole if whole.bytes > 0 => {
            card.copy_from_slice(&longer[..card.len()]);
            whole
        }
        short => short,
    }
}

#[test]
fn a_card_that_is_cut_off() {
    let engines: [Card; 3] = [cut_off::<1>, cut_off::<41>, cut_off::<410>];
    for engine in engines {
        answers(engine, "refused 14 at place 0", "value (end 0)");
    }
}

#[test]
fn no_14_for_a_buffer_of_no_bytes() {
    let engine: Card = |p, f, l, a, b, c| match right_card(p, f, l, a, b, c) {
        told if told.priced.run.refusal == 14 && c.is_empty() => {
            RecipeCard { priced: right_price(p, f, l, a, b), bytes: 0 }
        }
        told => told,
    };
    answers(engine, "refused 14 at place 0", "value (end 0)");
}

#[test]
fn buffers_kept_after_14() {
    let first: Card = |p, f, l, a, b, c| {
        let told = right_card(p, f, l, a, b, c);
        if told.priced.run.refusal == 14 {
            right_price(p, f, l, a, b);
        }
        told
    };
    let text = answers(first, "refused 14 at place 0", "refused 14 at place 0");
    assert!(text.contains("  first:  0 0\n") && text.contains("  first:  24 1\n"), "{text}");
    let second: Card = |p, f, l, a, b, c| {
        let before = b.to_vec();
        let told = right_card(p, f, l, a, b, c);
        if told.priced.run.refusal == 14 {
            b.copy_from_slice(&before);
        }
        told
    };
    answers(second, "refused 14 at place 0", "refused 14 at place 0");
    let card: Card = |p, f, l, a, b, c| {
        let before = c.to_vec();
        let told = right_card(p, f, l, a, b, c);
        if told.priced.run.refusal == 14 {
            c.copy_from_slice(&before);
        }
        told
    };
    answers(card, "refused 14 at place 0", "refused 14 at place 0");
}

#[test]
fn part_of_the_card_left_after_14() {
    let engine: Card = |p, f, l, a, b, c| {
        let told = right_card(p, f, l, a, b, c);
        if told.priced.run.refusal == 14 {
            let mut longer = vec![0; 410];
            right_card(p, f, l, &mut a.to_vec(), &mut b.to_vec(), &mut longer);
            c.copy_from_slice(&longer[..c.len()]);
        }
        told
    };
    let text = answers(engine, "refused 14 at place 0", "refused 14 at place 0");
    assert!(text.contains("  card:   \"TOTAL") || text.contains("  card:   \"T"), "{text}");
}

#[test]
fn numbers_told_after_14() {
    let engines: [Card; 4] = [
        |p, f, l, a, b, c| with_14(right_card(p, f, l, a, b, c), |told| told.priced.run.place = 1),
        |p, f, l, a, b, c| with_14(right_card(p, f, l, a, b, c), |told| told.priced.run.left = 2),
        |p, f, l, a, b, c| with_14(right_card(p, f, l, a, b, c), |told| told.priced.charge[8] = 1),
        |p, f, l, a, b, c| with_14(right_card(p, f, l, a, b, c), |told| told.bytes = 41),
    ];
    for engine in engines {
        answers(engine, "refused 14 at place 0", "refused 14 at place ");
    }
}

/// What is told, changed after 14.
fn with_14(mut told: RecipeCard, change: fn(&mut RecipeCard)) -> RecipeCard {
    if told.priced.run.refusal == 14 {
        change(&mut told);
    }
    told
}

/// 14 for a buffer of length 0, where the run ends so.
fn refused_at<const END: u32>(
    prices: &RecipePrices,
    file: &[u8],
    limit: u32,
    first: &mut [u32],
    second: &mut [u32],
    card: &mut [u8],
) -> RecipeCard {
    let told = right_card(prices, file, limit, first, second, card);
    match (told.priced.run.refusal, told.priced.run.end) == (0, END) && card.is_empty() {
        true => refused(14, first, second, card),
        false => told,
    }
}

#[test]
fn refusal_14_at_an_end_without_a_charge() {
    let engines: [(Card, &str); 3] =
        [(refused_at::<1>, "spent (end 1)"), (refused_at::<2>, "error (end 2)"), (refused_at::<3>, "full (end 3)")];
    for (engine, end) in engines {
        answers(engine, end, "refused 14 at place 0");
    }
}

/// A last line and its length where the run ends so.
fn card_at<const END: u32>(
    prices: &RecipePrices,
    file: &[u8],
    limit: u32,
    first: &mut [u32],
    second: &mut [u32],
    card: &mut [u8],
) -> RecipeCard {
    let mut told = right_card(prices, file, limit, first, second, card);
    if (told.priced.run.refusal, told.priced.run.end) == (0, END) && card.len() >= 41 {
        write("TOTAL                          0        \n", card);
        told.bytes = 41;
    }
    told
}

#[test]
fn a_card_at_an_end_without_a_charge() {
    let engines: [(Card, &str); 3] =
        [(card_at::<1>, "spent (end 1)"), (card_at::<2>, "error (end 2)"), (card_at::<3>, "full (end 3)")];
    for (engine, end) in engines {
        answers(engine, end, end);
    }
}

#[test]
fn the_buffer_kept_where_there_is_no_card() {
    let engine: Card = |p, f, l, a, b, c| {
        let before = c.to_vec();
        let told = right_card(p, f, l, a, b, c);
        if told.bytes == 0 {
            c.copy_from_slice(&before);
        }
        told
    };
    let text = shown(engine);
    assert!(text.contains("card buffer of 1 bytes\n") || text.contains("  card:   0\n"), "{text}");
}

/// 14 in the place of a refusal, where the buffer would be too short for the card of a can of three items.
fn before<const REFUSAL: u32>(
    prices: &RecipePrices,
    file: &[u8],
    limit: u32,
    first: &mut [u32],
    second: &mut [u32],
    card: &mut [u8],
) -> RecipeCard {
    let told = right_card(prices, file, limit, first, second, card);
    match told.priced.run.refusal == REFUSAL && card.len() < 4 * 41 {
        true => refused(14, first, second, card),
        false => told,
    }
}

/// The refusals that 14 comes after, with an engine that has it before.
const BEFORE: [(u32, Card); 11] = [
    (1, before::<1>),
    (2, before::<2>),
    (3, before::<3>),
    (4, before::<4>),
    (5, before::<5>),
    (6, before::<6>),
    (7, before::<7>),
    (8, before::<8>),
    (9, before::<9>),
    (10, before::<10>),
    (11, before::<11>),
];

#[test]
fn refusal_14_before_each_of_the_others() {
    for (number, card) in BEFORE {
        let engine = CardingEngine { card, ..RIGHT };
        // All choices of faults are part of the comparison.
        let differs = |faults| faults::case(faults).differs(engine) && faults::case(faults).breaks_a_law(engine);
        assert!(on_large_stack(|| faults::every().any(differs)), "14 before {number}");
    }
    answers(before::<10>, "refused 10 at place 0", "refused 14 at place 0");
    answers(before::<8>, "refused 8 at place 0", "refused 14 at place 0");
}

#[test]
fn a_card_written_at_10_or_told_there() {
    let written: Card = |p, f, l, a, b, c| {
        let told = right_card(p, f, l, a, b, c);
        if told.priced.run.refusal == 10 {
            write("TOTAL                          0        \n", c);
        }
        told
    };
    let text = answers(written, "refused 10 at place 0", "refused 10 at place 0");
    assert!(text.contains("  card:   \"T"), "{text}");
    let told: Card = |p, f, l, a, b, c| {
        let mut told = right_card(p, f, l, a, b, c);
        told.bytes += if told.priced.run.refusal == 10 { 410 } else { 0 };
        told
    };
    let text = answers(told, "refused 10 at place 0", "refused 10 at place 0");
    assert!(text.contains("  card of 0 bytes\n") && text.contains("  card of 410 bytes\n"), "{text}");
}

#[test]
fn a_tenth_line_in_the_place_of_10() {
    let engine: Card = |p, f, l, a, b, c| match right_card(p, f, l, a, b, c) {
        told if told.priced.run.refusal == 10 && c.len() < 451 => refused(14, a, b, c),
        told => told,
    };
    answers(engine, "refused 10 at place 0", "refused 14 at place 0");
}
