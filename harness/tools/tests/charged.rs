//! Planted errors in charges and totals are found, and shrunk to a small can.

use crate::common::pricing::*;
use model::on_large_stack;
use model::price::band;
use std::mem::{offset_of, size_of};
use tools::compare::{compare_price, missing};
use tools::engine::{Price, RecipePriced, RecipePrices, RecipeRun};
use tools::stand_in::price as right_price;

#[test]
fn no_difference_from_itself_and_all_reached() {
    let counts = on_large_stack(|| compare_price(right_price, PLAN)).expect("no difference");
    assert_eq!(missing(&counts.rows()), [""; 0]);
    assert!(counts.pricings > 50_000, "{}", counts.pricings);
}

#[test]
fn the_structs_are_laid_out_as_the_header_declares_them() {
    assert_eq!((size_of::<RecipePrices>(), size_of::<RecipeRun>(), size_of::<RecipePriced>()), (108, 40, 120));
    assert_eq!((offset_of!(RecipePriced, total), offset_of!(RecipePriced, charge)), (40, 48));
}

/// The comparison shows a can for which a cent is due and none is charged.
fn a_cent_less(engine: Price) {
    let Shown { text, model, engine, .. } = shown(engine);
    assert!((model.total, engine.total) == (1, 0), "{text}");
}

#[test]
fn a_charge_that_is_not_rounded_up() {
    a_cent_less(|prices, file, limit, first, second| {
        charged((prices, file, limit, first, second), |prices, pump, pulses| {
            u64::from(pulses) * price_of(prices, pump, pulses) / 1_000
        })
    });
}

#[test]
fn a_charge_rounded_to_the_nearest_cent() {
    a_cent_less(|prices, file, limit, first, second| {
        charged((prices, file, limit, first, second), |prices, pump, pulses| {
            (u64::from(pulses) * price_of(prices, pump, pulses) + 500) / 1_000
        })
    });
}

#[test]
fn a_cent_more_whatever_remains() {
    let Shown { text, term, model, engine } = shown(|prices, file, limit, first, second| {
        charged((prices, file, limit, first, second), |prices, pump, pulses| {
            u64::from(pulses) * price_of(prices, pump, pulses) / 1_000 + 1
        })
    });
    assert!((model.total, engine.total, term.as_str()) == (0, 1, "{0}"), "{text}");
}

#[test]
fn the_total_rounded_and_not_each_charge() {
    let Shown { text, model, engine, .. } = shown(|prices, file, limit, first, second| {
        let mut priced = right_price(prices, file, limit, first, second);
        if priced.total > 0 {
            let exact = |(pump, pulses): (usize, u32)| u64::from(pulses) * price_of(prices, pump, pulses);
            priced.total = pulses(first).into_iter().enumerate().map(exact).sum::<u64>().div_ceil(1_000);
        }
        priced
    });
    assert!(model.charges == engine.charges && (model.total, engine.total) == (2, 1), "{text}");
}

#[test]
fn a_table_indexed_by_band_and_pump() {
    let Shown { text, term, model, engine } = shown(|prices, file, limit, first, second| {
        charged((prices, file, limit, first, second), |prices, pump, pulses| {
            let place = 9 * band(pulses) + pump;
            (u64::from(pulses) * u64::from(prices.cents[place / 3][place % 3])).div_ceil(1_000)
        })
    });
    // A list of one item or two.
    assert!(term.starts_with('{') && term.split(' ').count() <= 2, "{text}");
    assert!(model.charges != engine.charges, "{text}");
}

#[test]
fn pumps_in_the_other_order() {
    let Shown { text, model, engine, .. } = shown(|prices, file, limit, first, second| {
        charged((prices, file, limit, first, second), |prices, pump, pulses| {
            (u64::from(pulses) * price_of(prices, 8 - pump, pulses)).div_ceil(1_000)
        })
    });
    assert!(model.total.max(engine.total) == 1 && model.total.min(engine.total) == 0, "{text}");
}

/// The comparison shows a can of just these pulses, at the edge of a band.
fn at_the_edge(engine: Price, pulses: u32) {
    let Shown { text, term, model, engine } = shown(engine);
    assert!(term == format!("{{{pulses}}}") && model.total != engine.total, "{text}");
}

#[test]
fn ten_thousand_pulses_taken_for_band_0() {
    let engine: Price = |prices, file, limit, first, second| {
        charged((prices, file, limit, first, second), |prices, pump, pulses| {
            let band = if pulses <= 10_000 { 0 } else { band(pulses) };
            (u64::from(pulses) * u64::from(prices.cents[pump][band])).div_ceil(1_000)
        })
    };
    at_the_edge(engine, 10_000);
}

#[test]
fn a_hundred_thousand_pulses_taken_for_band_1() {
    let engine: Price = |prices, file, limit, first, second| {
        charged((prices, file, limit, first, second), |prices, pump, pulses| {
            let band = if pulses <= 100_000 { band(pulses).min(1) } else { 2 };
            (u64::from(pulses) * u64::from(prices.cents[pump][band])).div_ceil(1_000)
        })
    };
    at_the_edge(engine, 100_000);
}

#[test]
fn a_pulse_less_taken_for_the_next_band() {
    let engine: Price = |prices, file, limit, first, second| {
        charged((prices, file, limit, first, second), |prices, pump, pulses| {
            (u64::from(pulses) * u64::from(prices.cents[pump][band(pulses + 1)])).div_ceil(1_000)
        })
    };
    at_the_edge(engine, 9_999);
}

#[test]
fn bands_for_the_parts_of_a_count() {
    let Shown { text, model, engine, .. } = shown(|prices, file, limit, first, second| {
        charged((prices, file, limit, first, second), |prices, pump, pulses| {
            let parts = [pulses.min(9_999), pulses.clamp(9_999, 99_999) - 9_999, pulses.max(99_999) - 99_999];
            let of = |band: usize| u64::from(parts[band]) * u64::from(prices.cents[pump][band]);
            (of(0) + of(1) + of(2)).div_ceil(1_000)
        })
    });
    assert!(model.total != engine.total, "{text}");
}

#[test]
fn a_product_of_32_bits() {
    let Shown { text, model, engine, .. } = shown(|prices, file, limit, first, second| {
        charged((prices, file, limit, first, second), |prices, pump, pulses| {
            u64::from(pulses.wrapping_mul(prices.cents[pump][band(pulses)]).div_ceil(1_000))
        })
    });
    // 4,294,967,296 thousandths of a cent are the first that do not fit.
    assert!(model.total >= 4_294_968 && engine.total <= 4_294_968, "{text}");
}

/// The least number that takes more than 32 bits.
const WIDE: u64 = 1 << 32;

#[test]
fn charges_of_32_bits() {
    let Shown { text, model, engine, .. } = shown(|prices, file, limit, first, second| {
        let priced = right_price(prices, file, limit, first, second);
        RecipePriced { charge: priced.charge.map(|charge| charge % WIDE), ..priced }
    });
    assert!(model.charges.iter().any(|&charge| charge >= WIDE), "{text}");
    assert!(engine.charges.iter().all(|&charge| charge < WIDE), "{text}");
}

#[test]
fn a_total_of_32_bits() {
    let Shown { text, model, engine, .. } = shown(|prices, file, limit, first, second| {
        let priced = right_price(prices, file, limit, first, second);
        RecipePriced { total: priced.total % WIDE, ..priced }
    });
    assert!(model.total >= WIDE && engine.total == model.total - WIDE, "{text}");
}

#[test]
fn a_total_without_the_ninth_charge() {
    let Shown { text, model, engine, .. } = shown(|prices, file, limit, first, second| {
        let priced = right_price(prices, file, limit, first, second);
        RecipePriced { total: priced.total - priced.charge[8], ..priced }
    });
    assert!(model.charges == [0, 0, 0, 0, 0, 0, 0, 0, 1] && (model.total, engine.total) == (1, 0), "{text}");
}

#[test]
fn a_pump_without_an_item_charged() {
    let Shown { text, model, engine, .. } = shown(|prices, file, limit, first, second| {
        let mut priced = right_price(prices, file, limit, first, second);
        if (priced.run.refusal, priced.run.end) == (0, 0) && pulses(first).len() < 9 {
            priced.charge[8] = u64::from(prices.cents[8][0]).div_ceil(1_000);
            priced.total += priced.charge[8];
        }
        priced
    });
    assert!((model.charges[8], engine.charges[8], engine.total) == (0, 1, 1), "{text}");
}

/// The right pricing, which charges the list that it leaves also where the run ends so.
fn charged_at<const END: u32>(
    prices: &RecipePrices,
    file: &[u8],
    limit: u32,
    first: &mut [u32],
    second: &mut [u32],
) -> RecipePriced {
    let mut priced = right_price(prices, file, limit, first, second);
    if (priced.run.refusal, priced.run.end) == (0, END) {
        for (pump, pulses) in pulses(first).into_iter().enumerate().take(9) {
            priced.charge[pump] = (u64::from(pulses) * price_of(prices, pump, pulses)).div_ceil(1_000);
        }
        priced.total = priced.charge.iter().sum();
    }
    priced
}

#[test]
fn charges_told_after_spent_and_after_full() {
    for (engine, end) in [(charged_at::<1> as Price, "spent (end 1)"), (charged_at::<3>, "full (end 3)")] {
        let Shown { text, model, engine, .. } = answers(engine, end, end);
        assert!((model.total, engine.total) == (0, 1), "{text}");
    }
}
