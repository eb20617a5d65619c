//! Planted errors in the refusals of pricing, their order and what they leave are found.

use crate::common::pricing::*;
use model::on_large_stack;
use tools::compare::price::{edges, faults};
use tools::engine::{Price, RecipePriced, RecipePrices};
use tools::stand_in::price as right_price;

#[test]
fn of_every_choice_of_faults_the_first_in_the_order_is_given() {
    on_large_stack(|| {
        for faults in faults::every() {
            let given = faults::case(faults).by_model().run.result.err().map(|refusal| refusal.number);
            assert_eq!(given, faults.due());
        }
    });
}

#[test]
fn the_edges_are_recipes_that_are_accepted() {
    on_large_stack(|| {
        assert!(edges::all().into_iter().all(|case| model::check(&case.lent.file).is_ok()));
    });
}

#[test]
fn ten_items_accepted() {
    let engine: Price = |prices, file, limit, first, second| {
        let priced = right_price(prices, file, limit, first, second);
        let (run, words) = plain(file, limit, first, second);
        if priced.run.refusal == 10 && pulses(&words).len() == 10 {
            first.copy_from_slice(&words);
            return RecipePriced { run, ..RecipePriced::default() };
        }
        priced
    };
    answers(engine, "refused 10 at place 0", "value (end 0)");
}

#[test]
fn nine_items_refused() {
    let engine: Price = |prices, file, limit, first, second| match right_price(prices, file, limit, first, second) {
        priced if (priced.run.refusal, priced.run.end) == (0, 0) && pulses(first).len() == 9 => {
            refused(10, first, second)
        }
        priced => priced,
    };
    answers(engine, "value (end 0)", "refused 10 at place 0");
}

#[test]
fn buffers_kept_after_10() {
    let engine: Price = |prices, file, limit, first, second| {
        let priced = right_price(prices, file, limit, first, second);
        if priced.run.refusal == 10 {
            first.copy_from_slice(&plain(file, limit, first, second).1);
        }
        priced
    };
    let Shown { text, .. } = answers(engine, "refused 10 at place 0", "refused 10 at place 0");
    assert!(text.contains("  first:  0(x22)\n") && text.contains("  first:  25 17 25 17 "), "{text}");
}

#[test]
fn steps_told_after_10() {
    let engine: Price = |prices, file, limit, first, second| {
        let mut priced = right_price(prices, file, limit, first, second);
        if priced.run.refusal == 10 {
            priced.run.steps = plain(file, limit, first, second).0.steps;
        }
        priced
    };
    let Shown { text, model, engine, .. } = answers(engine, "refused 10 at place 0", "refused 10 at place 0");
    assert!(model.answer.contains("; 0 0 0 0 0; ") && !engine.answer.contains("; 0 0 0 0 0; "), "{text}");
}

#[test]
fn charges_told_after_10() {
    let engine: Price = |prices, file, limit, first, second| {
        let mut priced = right_price(prices, file, limit, first, second);
        if priced.run.refusal == 10 {
            priced.charge[0] = prices.cents[0][0].into();
        }
        priced
    };
    let Shown { text, model, engine, .. } = answers(engine, "refused 10 at place 0", "refused 10 at place 0");
    assert!((model.charges[0], engine.charges[0]) == (0, 1), "{text}");
}

#[test]
fn a_place_told_with_9() {
    let engine: Price = |prices, file, limit, first, second| {
        let mut priced = right_price(prices, file, limit, first, second);
        priced.run.place += if priced.run.refusal == 9 { 4 } else { 0 };
        priced
    };
    answers(engine, "refused 9 at place 0", "refused 9 at place 4");
}

#[test]
fn ten_items_refused_before_the_value() {
    let engine: Price = |prices, file, limit, first, second| match right_price(prices, file, limit, first, second) {
        priced if priced.run.refusal == 0 && pulses(first).len() > 9 => refused(10, first, second),
        priced => priced,
    };
    answers(engine, "spent (end 1)", "refused 10 at place 0");
}

#[test]
fn ten_items_refused_before_the_capacity() {
    let engine: Price = |prices, file, limit, first, second| match right_price(prices, file, limit, first, second) {
        priced if priced.run.refusal == 8 && model::price(&prices.cents, file, limit, 999, 999).run.result.is_err() => {
            refused(10, first, second)
        }
        priced => priced,
    };
    answers(engine, "refused 8 at place 0", "refused 10 at place 0");
}

#[test]
fn refusal_9_after_8() {
    let engine: Price = |prices, file, limit, first, second| match right_price(prices, file, limit, first, second) {
        priced if priced.run.refusal == 9 && plain(file, limit, first, second).0.refusal == 8 => {
            refused(8, first, second)
        }
        priced => priced,
    };
    answers(engine, "refused 9 at place 0", "refused 8 at place 0");
}

#[test]
fn refusal_9_after_10() {
    let engine: Price = |prices, file, limit, first, second| {
        let priced = right_price(prices, file, limit, first, second);
        let (run, words) = plain(file, limit, first, second);
        let items = words.iter().take(run.left as usize).filter(|&&word| word == 25).count();
        match priced.run.refusal == 9 && run.end == 0 && items > 9 {
            true => refused(10, first, second),
            false => priced,
        }
    };
    answers(engine, "refused 9 at place 0", "refused 10 at place 0");
}

#[test]
fn lists_of_lists_and_of_lumps_taken_for_lists_of_numbers() {
    let engine: Price = |prices, file, limit, first, second| {
        let priced = right_price(prices, file, limit, first, second);
        if priced.run.refusal == 9 && file[16] == 3 {
            let (run, words) = plain(file, limit, first, second);
            first.copy_from_slice(&words);
            return RecipePriced { run, ..priced };
        }
        priced
    };
    let Shown { text, .. } = answers(engine, "refused 9 at place 0", "");
    assert!(text.contains("\ndeclared: {{N}}\n") || text.contains("\ndeclared: {L}\n"), "{text}");
}

#[test]
fn the_largest_price_refused() {
    let engine: Price = |prices, file, limit, first, second| match prices.cents.iter().flatten().max() {
        Some(&dearest) if dearest >= 1_000_000 => refused(11, first, second),
        _ => right_price(prices, file, limit, first, second),
    };
    let Shown { text, model, .. } = answers(engine, "", "refused 11 at place 0");
    assert!(!model.answer.starts_with("refused 11") && text.contains("1000000"), "{text}");
}

/// The right pricing, which looks at the prices of some places alone, counted pump by pump.
fn looking_at(places: fn(usize) -> bool, (prices, file, limit, first, second): Handed<'_>) -> RecipePriced {
    let mut cheaper = *prices;
    for (place, price) in cheaper.cents.iter_mut().flatten().enumerate() {
        *price = if places(place) { *price } else { (*price).min(1_000_000) };
    }
    right_price(&cheaper, file, limit, first, second)
}

#[test]
fn prices_that_are_not_looked_at() {
    let engines: [Price; 3] = [
        |prices, file, limit, first, second| looking_at(|place| place != 26, (prices, file, limit, first, second)),
        |prices, file, limit, first, second| looking_at(|place| place != 0, (prices, file, limit, first, second)),
        |prices, file, limit, first, second| looking_at(|place| place % 3 < 2, (prices, file, limit, first, second)),
    ];
    for engine in engines {
        let Shown { text, .. } = answers(engine, "refused 11 at place 0", "");
        assert!(text.contains("1000001"), "{text}");
    }
}

#[test]
fn only_the_prices_that_are_used_looked_at() {
    let engine: Price = |prices, file, limit, first, second| {
        let cheap = RecipePrices { cents: prices.cents.map(|row| row.map(|price| price.min(1_000_000))) };
        let priced = right_price(&cheap, file, limit, first, second);
        let used = pulses(first).into_iter().enumerate().take(9);
        match used.into_iter().any(|(pump, pulses)| price_of(prices, pump, pulses) > 1_000_000) {
            true => refused(11, first, second),
            false => priced,
        }
    };
    answers(engine, "refused 11 at place 0", "");
}

/// Whether a choice of faults shows a wrong order; all choices are part of the comparison.
fn shows_in_the_faults(engine: Price) -> bool {
    on_large_stack(|| faults::every().any(|faults| faults::case(faults).differs(engine)))
}

/// A pricing that looks at the words of the declared type before it gives a refusal.
fn type_before<const REFUSAL: u32>(
    prices: &RecipePrices,
    file: &[u8],
    limit: u32,
    first: &mut [u32],
    second: &mut [u32],
) -> RecipePriced {
    let priced = right_price(prices, file, limit, first, second);
    let numbers = file.get(16..24) == Some(&[3, 0, 0, 0, 1, 0, 0, 0]);
    match priced.run.refusal == REFUSAL && !numbers {
        true => refused(9, first, second),
        false => priced,
    }
}

#[test]
fn refusal_9_before_each_of_1_to_7() {
    let engines: [Price; 7] = [
        type_before::<1>,
        type_before::<2>,
        type_before::<3>,
        type_before::<4>,
        type_before::<5>,
        type_before::<6>,
        type_before::<7>,
    ];
    for (number, engine) in (1..).zip(engines) {
        assert!(shows_in_the_faults(engine), "9 before {number}");
    }
}

/// A pricing that looks at the prices only after it gives a refusal.
fn prices_after<const REFUSAL: u32>(
    prices: &RecipePrices,
    file: &[u8],
    limit: u32,
    first: &mut [u32],
    second: &mut [u32],
) -> RecipePriced {
    let others = right_price(&RecipePrices::default(), file, limit, first, second);
    match others.run.refusal == REFUSAL {
        true => others,
        false => right_price(prices, file, limit, first, second),
    }
}

#[test]
fn refusal_11_after_each_of_the_others() {
    let engines: [Price; 10] = [
        prices_after::<1>,
        prices_after::<2>,
        prices_after::<3>,
        prices_after::<4>,
        prices_after::<5>,
        prices_after::<6>,
        prices_after::<7>,
        prices_after::<8>,
        prices_after::<9>,
        prices_after::<10>,
    ];
    for (number, engine) in (1..).zip(engines) {
        assert!(shows_in_the_faults(engine), "11 after {number}");
    }
    answers(engines[0], "refused 11 at place 0", "refused 1 at place 0");
}
