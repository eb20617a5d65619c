//! `recipe card`: the batch card of a can, as the engine lays it out.

use super::price::Asked;
use super::run::{count, term};
use super::{without, Command, Desk, Failure, Outcome};
use crate::args::Args;
use crate::engine::Price;
use model::price::items;
use model::End;

pub const COMMAND: Command = Command { name: "card", help: HELP, work: card };

const HELP: &str = "\
usage: recipe card [FILE] --prices PRICES [--limit STEPS] [--words CAPACITY] [--bytes LENGTH]

Runs a recipe of type {N}, a file or a text, and prints the batch card of its can, to be pinned to it: a line for each item,
with the pump's number, its pulses and its charge in cents, and a last line with the total. Each line has 40 columns: a
pump's number ends in column 2, the pulses in column 16, a charge and the total in column 32. A run that ends otherwise
than in a value has no charge and no card; its end is told on standard error as `recipe price` tells it, so that nothing
but a card goes to a printer. The prices and the other options are those of `recipe price`. LENGTH is how many bytes are
lent for the card: 410 where none is named, which serve every card. Reads standard input where no FILE is named. Status 0:
the card is printed; 1: refused; 3: an error, 4: spent, 5: full, each without a card.
";

/// Bytes of the card's buffer where the command names no number: nine pumps, and the total.
const BYTES: u64 = 410;

/// The card; the end of a run that has none is said as a refusal is, so that nothing else is printed.
fn card(mut args: Args, desk: &mut Desk<'_>) -> Outcome {
    let engine = desk.engine.card.ok_or(without("run"))?;
    let price = desk.engine.price.ok_or(without("run"))?;
    let length = args.number("--bytes", BYTES)?.min(1 << 20) as usize;
    let asked = Asked::new(args, desk, "card")?;
    let ((mut first, mut second), mut card) = (asked.buffers(), vec![0; length]);
    let told = engine(&asked.table.prices, &asked.input.bytes, asked.limit, &mut first, &mut second, &mut card);
    let run = &told.priced.run;
    if run.refusal != 0 {
        let lent = if run.refusal == 14 { too_short(price, &asked, length)? } else { String::new() };
        return Err(Failure::Refused(asked.refused(run) + &lent));
    }
    first.truncate(run.left as usize);
    if run.end != 0 {
        let said = asked.uncharged(&desk.engine, run, &first)? + "no card: only a can with a charge has one\n";
        let end = End::ALL.get(run.end as usize).ok_or("the engine gave an end that has no meaning")?;
        return Err(Failure::Ended(*end, said));
    }
    let text = card.get(..told.bytes as usize).ok_or("the engine gave a card that is longer than its buffer")?;
    Ok(desk.output.write_all(text)?)
}

/// How many bytes a refused card has, by the items of the can, and how many were lent.
fn too_short(price: Price, asked: &Asked, length: usize) -> Result<String, String> {
    let (mut first, mut second) = asked.buffers();
    let priced = price(&asked.table.prices, &asked.input.bytes, asked.limit, &mut first, &mut second);
    first.truncate(priced.run.left as usize);
    let lines = items(&*term(&first)?).map_or(0, |items| items.len() + 1);
    Ok(format!("  the card has {}, the buffer {}\n", count(41 * lines as u32, "byte"), count(length as u32, "byte")))
}
