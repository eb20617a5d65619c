//! `recipe price`: the engine's pricing, its end, and what each pump and the can are charged.

use super::blame::told_end;
use super::input::{read_input, Input};
use super::prices::{read_prices, Table};
use super::run::{capacity, ended, left, refused, steps, term, told};
use super::{without, Command, Desk, Engine, Failure, Outcome};
use crate::args::Args;
use crate::engine::{RecipePriced, RecipeRun};
use model::price::{band, items};

pub const COMMAND: Command = Command { name: "price", help: HELP, work: price };

const HELP: &str = "\
usage: recipe price [FILE] --prices PRICES [--limit STEPS] [--words CAPACITY]

Runs a recipe of type {N}, a file or a text, and prints what its can costs: for each item, which is a pump's pulses, the
band, the price and the charge; then the total. Charges are in cents: pulses x price / 1,000, rounded up. The end and
where the steps went stand before, as `recipe run` prints them. A run that ends otherwise than in a value has no charge.
The options are those of `recipe run`. Reads standard input where no FILE is named. Status 0: a value; 1: refused;
3: an error; 4: spent; 5: full.

PRICES is a text of nine rows, for pumps 1 to 9, of three numbers: cents for 1,000 pulses in band 0 (under 10,000 pulses),
band 1 (under 100,000) and band 2 (the rest), each at most 1000000. Blanks stand between numbers; empty lines and what
follows a # are passed over.
";

/// What a pricing is asked for: by which prices, of which recipe, and what it is lent.
pub struct Asked {
    pub table: Table,
    pub input: Input,
    pub limit: u32,
    pub capacity: usize,
}

impl Asked {
    /// What the command says, by its name.
    pub fn new(mut args: Args, desk: &mut Desk<'_>, command: &str) -> Result<Asked, Failure> {
        let capacity = capacity(&mut args)?;
        let limit = steps(args.number("--limit", 1_000_000)?)?;
        let name = args.named("--prices", "the name of a price file")?;
        let name = name.ok_or_else(|| {
            format!("{command} needs --prices and the name of a price file; see recipe {command} --help")
        })?;
        let table = read_prices(&name)?;
        let input = read_input(args, desk)?;
        Ok(Asked { table, input, limit, capacity })
    }

    /// The two buffers of the run.
    pub fn buffers(&self) -> (Vec<u32>, Vec<u32>) {
        (vec![0; self.capacity], vec![0; self.capacity])
    }

    /// A refusal explained; of a price, the place where it stands.
    pub fn refused(&self, run: &RecipeRun) -> String {
        let over = self.table.over.as_ref().filter(|_| run.refusal == 11);
        refused(&self.input, run, self.capacity) + &over.map_or(String::new(), |over| format!("  {over}\n"))
    }

    /// An end without a charge: how the run ended, and what it left.
    pub fn uncharged(&self, engine: &Engine, run: &RecipeRun, words: &[u32]) -> Result<String, Failure> {
        let left = left(words, self.input.width)?;
        Ok(told_end(engine, &self.input, run, self.capacity)? + &left + "no charge: the run did not end in a value\n")
    }
}

/// The end of a run, and the charges of its value.
fn price(args: Args, desk: &mut Desk<'_>) -> Outcome {
    let engine = desk.engine.price.ok_or(without("run"))?;
    let asked = Asked::new(args, desk, "price")?;
    let (mut first, mut second) = asked.buffers();
    let priced = engine(&asked.table.prices, &asked.input.bytes, asked.limit, &mut first, &mut second);
    if priced.run.refusal != 0 {
        return Err(Failure::Refused(asked.refused(&priced.run)));
    }
    first.truncate(priced.run.left as usize);
    let text = match priced.run.end {
        0 => ended(&priced.run, None) + &bill(&asked.table, &first, &priced)?,
        _ => asked.uncharged(&desk.engine, &priced.run, &first)?,
    };
    desk.output.write_all(text.as_bytes())?;
    told(&priced.run)
}

/// A line of the table: pump, pulses, band, price and charge.
fn line(columns: [&str; 5]) -> String {
    let [pump, pulses, band, price, charge] = columns;
    format!("{pump:>4}  {pulses:>10}  {band:>4}  {price:>7}  {charge:>14}\n")
}

/// The items of the value with their charges, and the total.
fn bill(table: &Table, words: &[u32], priced: &RecipePriced) -> Result<String, String> {
    let value = term(words)?;
    let items = items(&value).ok_or("the engine left a value that is no list of numbers")?;
    let mut text = line(["pump", "pulses", "band", "price", "charge"]);
    for ((pump, pulses), charge) in items.into_iter().enumerate().zip(priced.charge) {
        let band = band(pulses);
        let price = table.prices.cents[pump][band].to_string();
        text += &line([&(pump + 1).to_string(), &pulses.to_string(), &band.to_string(), &price, &charge.to_string()]);
    }
    Ok(text + &format!("total{:>42}\n", priced.total))
}
