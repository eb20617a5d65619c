//! `recipe page`: a run as one page to look at in a browser, with nothing in it that comes from elsewhere.

mod data;
mod fill;
mod record;

use self::data::data;
use self::fill::{escaped, filled};
use self::record::record;
use super::blame::told_end;
use super::input::read_with_text;
use super::run::{steps, Lent};
use super::whole::write_whole;
use super::{Command, Desk, Outcome};
use crate::args::Args;
use std::path::Path;

pub const COMMAND: Command = Command { name: "page", help: HELP, work: page };

const HELP: &str = "\
usage: recipe page [FILE] -o OUT [--to STEP] [--limit STEPS] [--words CAPACITY]

Writes a page of the run of a recipe file or of a text, to look at in any browser: the term as a tree and as text with the
node in turn marked, forwards and backwards over the steps, the rule of each and what it is counted as, the words of the
term and the counts drawn over the steps, and the end. Of a text it shows, too, the place that the node in turn comes from.
The page is one file, and nothing in it comes from elsewhere. It shows 2,000 steps at most, or those up to --to; the end is
that of `recipe run` with 1,000,000 steps at most, or --limit, and with two buffers of 4,096 words, or --words. A step is
part of the page's address: OUT#7 opens at step 7. Reads standard input where no FILE is named. Status 0: written; 1:
refused, and OUT stays as it was.
";

/// Steps shown where none is named to stop at.
const SHOWN: u64 = 2_000;

/// What the page is made of, beside the run.
const SKELETON: &str = include_str!("page.html");
const STYLE: &str = include_str!("page.css");
const SCRIPT: &str =
    concat!(include_str!("term.js"), include_str!("tree.js"), include_str!("plots.js"), include_str!("page.js"));

/// Writes the page of a run whole.
fn page(mut args: Args, desk: &mut Desk<'_>) -> Outcome {
    let out =
        args.named("-o", "the name of a file to write")?.ok_or("-o is due, with the name of the page to write")?;
    let lent = Lent::new(&mut args, desk)?;
    let to = steps(args.number("--to", SHOWN)?)?;
    let limit = steps(args.number("--limit", 1_000_000)?)?;
    let name = args.word();
    args.finish()?;
    let (input, text) = read_with_text(Args::new(name.clone()), desk)?;
    let (result, _) = lent.run(&input, limit)?;
    let record = record(&desk.engine, &input, lent.capacity, to.min(result.steps))?;
    let shown = shown(record.steps.len(), result.steps as usize);
    let parts = [
        ("title", escaped(&title(name))),
        ("style", STYLE.to_string()),
        ("end", escaped(&told_end(&desk.engine, &input, &result, lent.capacity)?)),
        ("shown", escaped(&format!("This page shows {shown}."))),
        ("run", data(&record, &input, &text)),
        ("script", SCRIPT.to_string()),
    ];
    let page = filled(SKELETON, &parts);
    write_whole(&out, page.as_bytes()).map_err(|fault| format!("cannot write {out}: {fault}"))?;
    Ok(writeln!(desk.output, "{out} shows {shown}")?)
}

/// The name of the recipe's file without its folder.
fn title(name: Option<String>) -> String {
    let file = name.filter(|name| name != "-").unwrap_or("a recipe".into());
    let last = Path::new(&file).file_name().map(|name| name.to_string_lossy().into_owned());
    format!("The run of {}", last.unwrap_or(file))
}

/// Which steps are shown, and of how many.
fn shown(last: usize, steps: usize) -> String {
    match last == steps {
        true => format!("steps 0 to {last}"),
        false => format!("steps 0 to {last} of {steps}; --to shows more"),
    }
}
