//! A shop's price tables: prices that all differ, telling prices, and prices that are too large.

use crate::engine::RecipePrices;
use crate::random::Random;
use model::price::{BANDS, MOST_PRICE, PUMPS};

/// Places of a price table.
pub const PLACES: usize = PUMPS * BANDS;

/// Prices that tell and are no refusal.
pub const PRICES: [u32; 9] = [0, 1, 2, 999, 1_000, 1_001, 12_345, MOST_PRICE - 1, MOST_PRICE];

/// Prices that are refused.
pub const OVER: [u32; 4] = [MOST_PRICE + 1, MOST_PRICE + 2, u32::MAX - 1, u32::MAX];

/// The table that has these prices, pump by pump.
pub fn table_of(price: impl Fn(usize) -> u32) -> RecipePrices {
    RecipePrices { cents: std::array::from_fn(|pump| std::array::from_fn(|band| price(pump * BANDS + band))) }
}

/// The table with another price at a place, counted pump by pump.
pub fn with_price(mut table: RecipePrices, place: usize, price: u32) -> RecipePrices {
    table.cents[place / BANDS][place % BANDS] = price;
    table
}

/// Prices that all differ by more than a rounding hides.
pub fn differing() -> RecipePrices {
    table_of(|place| 1_237 + 36_011 * ((place as u32 * 10 + 4) % PLACES as u32))
}

/// Any table; one in twelve has a price that is refused.
pub fn any_prices(random: &mut Random) -> RecipePrices {
    let table = match random.below(4) {
        0 => {
            let same = random.pick(&PRICES);
            table_of(|_| same)
        }
        1 => {
            let telling: [u32; PLACES] = std::array::from_fn(|_| random.pick(&PRICES));
            table_of(|place| telling[place])
        }
        _ => {
            let (turn, more) = (random.below(PLACES), random.below(36_000) as u32);
            table_of(|place| more + 37_000 * ((place * 10 + turn) % PLACES) as u32)
        }
    };
    match random.chance(8) {
        true => with_price(table, random.below(PLACES), random.pick(&OVER)),
        false => table,
    }
}
