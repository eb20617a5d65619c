//! What a comparison of pricings has reached: ends, refusals and their order, numbers of items, pumps, bands, roundings.

use super::faults::ORDER;
use super::PriceCase;
use crate::compare::counts::{order_rows, Counts};
use model::price::{band, BANDS, MOST_PRICE, PUMPS};
use model::rules::Rule;
use model::{check, Charges, End, Ml, Priced, Refusal};

/// Counts of pulses at the edges of the bands, and the least and the largest.
const PULSES: [u32; 6] = [0, 9_999, 10_000, 99_999, 100_000, 16_777_215];

/// All that is counted of pricings.
#[derive(Default)]
pub struct PriceCounts {
    pub pricings: u64,
    /// The ends, the steps to them, and the refusals.
    runs: Counts,
    /// Values of so many items.
    items: [u64; PUMPS + 1],
    /// Ends of lists of ten or more items, by the end; those at a value are refused.
    long: [u64; 4],
    /// Refusals 10 of runs that had made steps.
    refused_after_steps: u64,
    /// Charges over 0.
    charged: [[u64; BANDS]; PUMPS],
    /// Tables in which this price alone is too large.
    over: [[u64; BANDS]; PUMPS],
    /// Items of just these pulses.
    pulses: [u64; PULSES.len()],
    /// Charges that were rounded up, that were not, at price 0, at the largest price, and over 32 bits; totals over 32 bits.
    charges: [u64; 5],
    large_totals: u64,
    /// Refusals given while another fits, by both numbers.
    before: [[u64; 12]; 12],
}

impl PriceCounts {
    /// Counts a pricing, by what the model answers.
    pub fn count(&mut self, case: &PriceCase, priced: &Priced) {
        self.pricings += 1;
        self.runs.file(&case.lent.file, priced.run.result.as_ref().err());
        match &priced.run.result {
            Err(refusal) => self.refused(refusal, case, priced),
            Ok(ended) => {
                self.runs.ended(ended);
                self.long[ended.end as usize] += u64::from(ended.end != End::Value && is_long(case));
            }
        }
        if let Some(charges) = &priced.charges {
            self.charged(case, charges);
        }
    }

    /// Counts a refusal, and the price that alone is too large.
    fn refused(&mut self, refusal: &Refusal, case: &PriceCase, priced: &Priced) {
        self.runs.refused(refusal);
        let steps: u64 = Rule::ALL.iter().map(|rule| priced.run.rules.of(*rule)).sum();
        self.refused_after_steps += u64::from(refusal.number == 10 && steps > 0);
        let places = (0..PUMPS).flat_map(|pump| (0..BANDS).map(move |band| (pump, band)));
        let over: Vec<_> = places.filter(|&(pump, band)| case.prices.cents[pump][band] > MOST_PRICE).collect();
        if let [(pump, band)] = over[..] {
            self.over[pump][band] += 1;
        }
    }

    /// Counts the items of a value, and what they are charged.
    fn charged(&mut self, case: &PriceCase, charges: &Charges) {
        self.items[charges.items.len()] += 1;
        self.large_totals += u64::from(charges.total > u64::from(u32::MAX));
        for (pump, (&pulses, &charge)) in charges.items.iter().zip(&charges.each).enumerate() {
            let band = band(pulses);
            let price = case.prices.cents[pump][band];
            self.charged[pump][band] += u64::from(charge > 0);
            let exact = (u64::from(pulses) * u64::from(price)).is_multiple_of(1_000);
            let large = charge > u64::from(u32::MAX);
            let kinds =
                [!exact, exact && charge > 0, pulses > 0 && price == 0, pulses > 0 && price == MOST_PRICE, large];
            self.charges.iter_mut().zip(kinds).for_each(|(count, is)| *count += u64::from(is));
            self.pulses.iter_mut().zip(PULSES).for_each(|(count, telling)| *count += u64::from(pulses == telling));
        }
    }

    /// One refusal was given although another fits too.
    pub fn given_before(&mut self, given: u32, other: u32) {
        self.before[given as usize][other as usize] += 1;
    }

    /// The table of the comparison.
    pub fn rows(&self) -> Vec<(String, u64)> {
        let items = (0..).zip(self.items).map(|(items, count)| (format!("items of a value: {items}"), count));
        let long = [End::Spent, End::Error, End::Full]
            .map(|end| (format!("end: {}, with ten or more items in the file", end.name()), self.long[end as usize]));
        let after = ("refusal 10 after steps".to_string(), self.refused_after_steps);
        let pulses = PULSES.iter().zip(self.pulses).map(|(pulses, count)| (format!("{pulses} pulses"), count));
        let rows = self.runs.of_pricings().into_iter().chain(long).chain([after]).chain(items);
        rows.chain(self.by_pump())
            .chain(pulses)
            .chain(self.charge_rows())
            .chain(order_rows(&ORDER, &self.before))
            .collect()
    }

    /// Of the three bands of a pump the least count, so that none is left out.
    fn by_pump(&self) -> Vec<(String, u64)> {
        let least = |bands: &[u64; BANDS]| bands.iter().copied().min().unwrap_or(0);
        let charged = |pump: usize| (format!("pump {} charged in each band", pump + 1), least(&self.charged[pump]));
        let over =
            |pump: usize| (format!("refusal 11 by each price of pump {} alone", pump + 1), least(&self.over[pump]));
        (0..PUMPS).map(charged).chain((0..PUMPS).map(over)).collect()
    }

    /// The rows of charges and totals.
    fn charge_rows(&self) -> Vec<(String, u64)> {
        let names = ["rounded up", "not rounded", "at price 0", "at price 1,000,000", "over 32 bits"];
        let charges = names.iter().zip(self.charges).map(|(name, count)| (format!("charge {name}"), count));
        charges.chain([("total over 32 bits".to_string(), self.large_totals)]).collect()
    }
}

/// Whether the file's term begins with ten items or more.
fn is_long(case: &PriceCase) -> bool {
    let Ok(recipe) = check(&case.lent.file) else { return false };
    let (mut rest, mut items) = (&*recipe.term, 0);
    while let Ml::Cons(_, tail) = rest {
        (rest, items) = (tail, items + 1);
    }
    items > PUMPS
}
