//! A can priced against a plain run of the same recipe, and its card against its price: whole calls, each with reading, check,
//! run and clearing.

use super::recipes::{cans, Recipe};
use super::table::figure;
use super::timing::{side_by_side, Work};
use super::works::{lent, sizes};
use crate::engine::{linked_card, linked_price, linked_run, Card, Price, Run};
use crate::make::prices::differing;
use model::check;
use std::hint::black_box;

/// More steps than any of the cans takes.
const LIMIT: u32 = 20_000;

/// What was measured of a can, in seconds for a call.
pub struct Priced {
    pub name: String,
    pub steps: usize,
    /// Words of each buffer lent.
    pub lent: usize,
    /// None where the engine is not linked.
    pub run: Option<f64>,
    pub price: Option<f64>,
    pub card: Option<f64>,
}

/// One row for each can.
pub fn tables() -> Vec<String> {
    [head()].into_iter().chain(cans().iter().map(|can| measured(can).row())).collect()
}

/// The line that stands over the columns.
pub fn head() -> String {
    let times = ["run, ns", "price, ns", "card, ns", "price/run", "card/price"].map(|name| format!(" {name:>10}"));
    format!("{:<34} {:>6} {:>6}{}", "can", "steps", "lent", times.concat())
}

impl Priced {
    /// The row's text.
    pub fn row(&self) -> String {
        let Priced { name, steps, lent, run, price, card } = self;
        let times = [run, price, card].map(|seconds| seconds.map(|seconds| 1e9 * seconds));
        let ratio = |of: &Option<f64>, by: &Option<f64>| of.zip(*by).map(|(of, by)| of / by);
        let figures = times.into_iter().chain([ratio(price, run), ratio(card, price)]);
        let figures: String = figures.map(|value| format!(" {:>10}", figure(value))).collect();
        format!("{name:<34} {steps:>6} {lent:>6}{figures}")
    }
}

/// Times the three calls of a can, in turn.
fn measured(can: &Recipe) -> Priced {
    let term = check(&can.file).expect("the benchmarks' recipes are accepted").term;
    let sizes = sizes(&term, LIMIT);
    let lent = lent(&sizes, can.file.len() / 4);
    let (name, steps) = (can.name.clone(), sizes.len() - 1);
    let Some(((run, price), card)) = linked_run().zip(linked_price()).zip(linked_card()) else {
        return Priced { name, steps, lent, run: None, price: None, card: None };
    };
    let file = &can.file;
    let times = side_by_side(&mut [running(run, file, lent), pricing(price, file, lent), carding(card, file, lent)]);
    Priced { name, steps, lent, run: Some(times[0]), price: Some(times[1]), card: Some(times[2]) }
}

/// The run of a file.
fn running(run: Run, file: &[u8], lent: usize) -> Work<'_> {
    let (mut first, mut second) = (vec![0; lent], vec![0; lent]);
    Box::new(move || {
        black_box(run(black_box(file), LIMIT, &mut first, &mut second));
    })
}

/// The pricing of a file.
fn pricing(price: Price, file: &[u8], lent: usize) -> Work<'_> {
    let (mut first, mut second) = (vec![0; lent], vec![0; lent]);
    let prices = differing();
    Box::new(move || {
        black_box(price(black_box(&prices), black_box(file), LIMIT, &mut first, &mut second));
    })
}

/// The card of a file in a buffer that serves every card.
fn carding(card: Card, file: &[u8], lent: usize) -> Work<'_> {
    let (mut first, mut second, mut out) = (vec![0; lent], vec![0; lent], vec![0; 410]);
    let prices = differing();
    Box::new(move || {
        black_box(card(black_box(&prices), black_box(file), LIMIT, &mut first, &mut second, &mut out));
    })
}
