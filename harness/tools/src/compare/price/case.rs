//! One pricing of the engine beside one of the model.

use super::PriceCounts;
use crate::compare::case::Case;
use crate::compare::seen::{lend, show_both, Seen};
use crate::engine::{Price, RecipePriced, RecipePrices};
use crate::make::prices::{with_price, PLACES};
use crate::stand_in::told_priced;
use model::Priced;

/// A pricing: the prices, and what its run is lent.
#[derive(Clone)]
pub struct PriceCase {
    pub prices: RecipePrices,
    pub lent: Case,
}

impl PriceCase {
    /// Prices by both. A difference comes back shrunk and shown.
    pub fn compare(&self, engine: Price, counts: &mut PriceCounts) -> Result<Priced, String> {
        let model = self.by_model();
        counts.count(self, &model);
        match seen_of(&model) == self.by_engine(engine) {
            true => Ok(model),
            false => Err(self.shrunk(&mut |case| case.differs(engine)).shown(engine)),
        }
    }

    /// What the model answers.
    pub fn by_model(&self) -> Priced {
        let Case { file, limit, first, second } = &self.lent;
        model::price(&self.prices.cents, file, *limit, *first, *second)
    }

    /// What the engine answers and leaves in buffers full of rubbish.
    pub fn by_engine(&self, engine: Price) -> Seen<RecipePriced> {
        lend(&self.lent, |first, second| engine(&self.prices, &self.lent.file, self.lent.limit, first, second))
    }

    /// Whether the two differ; a run that may take very long is not tried.
    pub fn differs(&self, engine: Price) -> bool {
        self.lent.is_short() && seen_of(&self.by_model()) != self.by_engine(engine)
    }

    /// A smaller case for which the property still holds.
    pub fn shrunk(&self, holds: &mut dyn FnMut(&PriceCase) -> bool) -> PriceCase {
        let mut best = self.clone();
        for _ in 0..2 {
            let prices = best.prices;
            best.lent = best.lent.shrunk(&mut |lent| holds(&PriceCase { prices, lent: lent.clone() }));
            best.shrink_prices(holds);
        }
        best
    }

    /// Makes prices smaller while the property holds.
    fn shrink_prices(&mut self, holds: &mut dyn FnMut(&PriceCase) -> bool) {
        let with = |prices: RecipePrices| PriceCase { prices, lent: self.lent.clone() };
        let mut best = self.prices;
        while let Some(smaller) = smaller_prices(&best).into_iter().find(|prices| holds(&with(*prices))) {
            best = smaller;
        }
        self.prices = best;
    }

    /// The case as it was lent.
    pub fn show(&self) -> String {
        let rows = self.prices.cents.map(|[low, middle, high]| format!("{low} {middle} {high}"));
        format!("prices:   {}\n{}", rows.join(", "), self.lent.show())
    }

    /// The case, and what both sides answer and leave.
    fn shown(&self, engine: Price) -> String {
        self.show() + &show_both(&seen_of(&self.by_model()), &self.by_engine(engine))
    }
}

/// The table with one price smaller, the smallest first.
fn smaller_prices(prices: &RecipePrices) -> Vec<RecipePrices> {
    let at = |place: usize| {
        let price = prices.cents[place / 3][place % 3];
        let mut less = vec![0, 1, 999, 1_000, 1_001, 1_000_000, 1_000_001, price / 2, price - price / 64];
        less.retain(|&smaller| smaller < price);
        less.into_iter().map(move |smaller| with_price(*prices, place, smaller))
    };
    (0..PLACES).flat_map(at).collect()
}

/// What the model answered and left.
fn seen_of(priced: &Priced) -> Seen<RecipePriced> {
    let (first, second) = (priced.run.first.clone(), priced.run.second.clone());
    Seen { answer: told_priced(priced), first, second, within: true }
}
