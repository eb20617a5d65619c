//! Pricings with planted errors, and what the comparison shows of them.

use model::on_large_stack;
use model::price::band;
use tools::compare::{compare_price, Plan};
use tools::engine::{Price, RecipePriced, RecipePrices, RecipeRun};
use tools::stand_in;

pub const PLAN: Plan = Plan { files: 3_000, seed: 1, start: 0 };

/// What a side of a difference tells: its first line, its total and its charges.
pub struct Told {
    pub answer: String,
    pub total: u64,
    pub charges: Vec<u64>,
}

/// A difference as it is shown: all of it, its term, the model's side and the engine's.
pub struct Shown {
    pub text: String,
    pub term: String,
    pub model: Told,
    pub engine: Told,
}

/// What the comparison shows of a wrong pricing: its recipe is small.
pub fn shown(engine: Price) -> Shown {
    let text = on_large_stack(|| compare_price(engine, PLAN)).err().expect("a difference");
    let term = text.lines().find_map(|line| line.strip_prefix("term:     ")).unwrap_or("").to_string();
    assert!(term.len() < 110, "{text}");
    let (model, engine) = text.split_once("engine:\n").expect("both sides");
    let (_, model) = model.split_once("model:\n").expect("both sides");
    let (model, engine) = (told(model), told(engine));
    Shown { text, term, model, engine }
}

fn told(side: &str) -> Told {
    let mut lines = side.lines().map(str::trim);
    let answer = lines.next().expect("an answer").to_string();
    let amounts = lines.find_map(|line| line.strip_prefix("total ")).expect("the amounts");
    let (total, charges) = amounts.split_once(", charges ").expect("a total and charges");
    let number = |text: &str| text.parse().expect("a number");
    Told { answer, total: number(total), charges: charges.split(' ').map(number).collect() }
}

/// The comparison shows answers that start so, the model's first.
pub fn answers(engine: Price, model: &str, planted: &str) -> Shown {
    let shown = shown(engine);
    assert!(shown.model.answer.starts_with(model) && shown.engine.answer.starts_with(planted), "{}", shown.text);
    shown
}

/// All that a pricing is handed.
pub type Handed<'a> = (&'a RecipePrices, &'a [u8], u32, &'a mut [u32], &'a mut [u32]);

/// The pulses of the list that stands first in the words, as far as its items are numbers.
pub fn pulses(words: &[u32]) -> Vec<u32> {
    let cells = words.chunks(2).take_while(|cell| cell[0] == 25);
    cells.map_while(|cell| cell.get(1)).take_while(|word| *word % 256 == 17).map(|word| word / 256).collect()
}

/// The right pricing, each charge of a value worked out anew from the prices, the pump, counted from 0, and its pulses.
pub fn charged(handed: Handed<'_>, charge: fn(&RecipePrices, usize, u32) -> u64) -> RecipePriced {
    let (prices, file, limit, first, second) = handed;
    let mut priced = stand_in::price(prices, file, limit, first, second);
    if priced.run.refusal == 0 && priced.run.end == 0 {
        for (pump, pulses) in pulses(first).into_iter().enumerate() {
            priced.charge[pump] = charge(prices, pump, pulses);
        }
        priced.total = priced.charge.iter().sum();
    }
    priced
}

/// The price of a pump for its pulses.
pub fn price_of(prices: &RecipePrices, pump: usize, pulses: u32) -> u64 {
    prices.cents[pump][band(pulses)].into()
}

/// The run alone, in buffers of its own as long as these; the words left come second.
pub fn plain(file: &[u8], limit: u32, first: &[u32], second: &[u32]) -> (RecipeRun, Vec<u32>) {
    let mut words = vec![0; first.len()];
    let run = stand_in::run(file, limit, &mut words, &mut vec![0; second.len()]);
    (run, words)
}

/// A refusal, with both buffers cleared.
pub fn refused(number: u32, first: &mut [u32], second: &mut [u32]) -> RecipePriced {
    first.fill(0);
    second.fill(0);
    RecipePriced { run: RecipeRun { refusal: number, ..RecipeRun::default() }, ..RecipePriced::default() }
}
