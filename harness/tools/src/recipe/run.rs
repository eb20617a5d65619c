//! `recipe run`: the engine's run, its end, where its steps went, and the term that it leaves.

use super::blame::told_end;
use super::explain::explain;
use super::input::{read_input, Input};
use super::save::Saving;
use super::{take_width, without, Command, Desk, Failure, Outcome};
use crate::args::Args;
use crate::engine::{RecipeRun, Run};
use model::check::read_recipe;
use model::node::Node;
use model::read::read_ml;
use model::text::{pretty, Style};
use model::{End, Ml, Refusal};
use std::rc::Rc;

pub const COMMAND: Command = Command { name: "run", help: HELP, work: run };

const HELP: &str = "\
usage: recipe run [FILE] [--limit STEPS] [--words CAPACITY] [--save OUT] [--width COLUMNS]

Runs a recipe file or the file of a text, for 1,000,000 steps at most with two buffers of 4,096 words. Prints the end,
where the steps went, and the term left. A step on an app or a fix is a call; a step on an ms or an sm is a conversion;
all others, the one that ends the run with an error too, are others. After an error it says where that was made: by which
rule, at which node of the text and of the file, and from which value; or at which wrong of the recipe's own. A line has as
many columns as the terminal, or 100; --width tells another number, at least 20. Reads standard input where no FILE is
named. Status 0: a value; 1: refused; 3: an error; 4: spent; 5: full.

With --save the term that a spent or full run leaves is written to OUT, a recipe file with the same declared type, and
`recipe run OUT` goes on with it: both runs together end as one run would have, and their steps and counts add up. A
full run needs more words to go on. After a value or an error nothing is written. A term that is too deep or too large
for a file is refused; status 1, and OUT stays as it was. A file that an earlier release saved goes on by the rules of
this one.
";

/// Words of each buffer where the command names no number.
pub const WORDS: usize = 4_096;

/// What a run is lent.
pub struct Lent {
    engine: Run,
    pub capacity: usize,
}

impl Lent {
    /// The engine, and the capacity that the command asks for.
    pub fn new(args: &mut Args, desk: &Desk<'_>) -> Result<Lent, Failure> {
        let engine = desk.engine.run.ok_or(without("run"))?;
        Ok(Lent { engine, capacity: capacity(args)? })
    }

    /// Runs the file, unless it is refused; the words left come second.
    pub fn run(&self, input: &Input, limit: u32) -> Result<(RecipeRun, Vec<u32>), Failure> {
        let (mut first, mut second) = (vec![0; self.capacity], vec![0; self.capacity]);
        let result = (self.engine)(&input.bytes, limit, &mut first, &mut second);
        if result.refusal != 0 {
            return Err(Failure::Refused(refused(input, &result, self.capacity)));
        }
        first.truncate(result.left as usize);
        Ok((result, first))
    }
}

/// The words of each buffer that the command asks for.
pub fn capacity(args: &mut Args) -> Result<usize, String> {
    Ok(args.number("--words", WORDS as u64)?.min(1 << 20) as usize)
}

/// A refusal explained.
pub fn refused(input: &Input, result: &RecipeRun, capacity: usize) -> String {
    let refusal = Refusal::new(result.refusal, result.place as usize);
    let lent = if result.refusal == 8 { too_large(input, capacity) } else { String::new() };
    explain(input, &refusal) + &lent
}

/// The end of a run, where its steps went, and the term left, which is saved first where that is asked for.
fn run(mut args: Args, desk: &mut Desk<'_>) -> Outcome {
    let lent = Lent::new(&mut args, desk)?;
    let limit = steps(args.number("--limit", 1_000_000)?)?;
    let saving = Saving::new(&mut args, desk)?;
    take_width(&mut args, desk)?;
    let input = read_input(args, desk)?;
    let (result, words) = lent.run(&input, limit)?;
    let text = told_end(&desk.engine, &input, &result, lent.capacity)? + &left(&words, desk.width)?;
    let saved = saving.map_or(Ok(String::new()), |saving| saving.save(&input, &result, &words, lent.capacity));
    let (said, fault) = saved.map_or_else(|fault| (String::new(), Some(fault)), |said| (said, None));
    let printed = desk.output.write_all((text + &said).as_bytes()).and_then(|()| desk.output.flush());
    match fault {
        Some(fault) => Err(fault),
        None => Ok(printed?),
    }?;
    told(&result)
}

/// The end of a run by which the status goes, when all is printed.
pub fn told(result: &RecipeRun) -> Outcome {
    match End::ALL.get(result.end as usize) {
        Some(End::Value) => Ok(()),
        Some(end) => Err(Failure::Ended(*end, String::new())),
        None => Err("the engine gave an end that has no meaning".into()),
    }
}

/// How many words a refused term has, and how many were lent.
fn too_large(input: &Input, capacity: usize) -> String {
    let term = read_recipe(&input.bytes, usize::MAX).map_or(0, |recipe| Node::Ml(&recipe.term).size());
    format!("  the term has {}, the buffers {}\n", count(term as u32, "word"), count(capacity as u32, "word"))
}

/// A number of steps.
pub fn steps(number: u64) -> Result<u32, String> {
    u32::try_from(number).map_err(|_| format!("a run makes at most {} steps, not {number}", u32::MAX))
}

/// The end in a line, and where the steps went in another; of an error it may be known whether a rule made it.
pub fn ended(result: &RecipeRun, by_rule: Option<bool>) -> String {
    let RecipeRun { calls, conversions, others, .. } = *result;
    let went = [(calls, "call"), (conversions, "conversion"), (others, "other")];
    format!("{}\n{}\n", end(result, by_rule), went.map(|(number, class)| count(number, class)).join(", "))
}

/// The end in a line.
fn end(result: &RecipeRun, by_rule: Option<bool>) -> String {
    let steps = count(result.steps, "step");
    match result.end {
        0 => format!("value after {steps}, {}", count(result.left, "word")),
        1 => format!("spent after {steps}, {}", count(result.left, "word")),
        2 => format!("error {} after {steps}{}", result.code, meaning(result.code, by_rule)),
        3 => format!("full after {steps}: the next term has {}", count(result.wanted, "word")),
        end => format!("the engine gave an end that has no meaning: {end}"),
    }
}

/// What a code means: by the rules, by the recipe, or by either where it is not known.
fn meaning(code: u32, by_rule: Option<bool>) -> String {
    let rules = match code {
        1 => "no number for add, subtract, if0 or ms N",
        2 => "no function",
        3 => "no list",
        4 => "an empty list",
        5 => "a number over 16,777,215",
        _ => return ": the recipe's own code".into(),
    };
    match by_rule {
        Some(true) => format!(": {rules}"),
        Some(false) => ": the recipe's own code".into(),
        None => format!(": {rules}, or the recipe's own code"),
    }
}

/// A number of things.
pub fn count(number: u32, what: &str) -> String {
    format!("{number} {what}{}", if number == 1 { "" } else { "s" })
}

/// The term that a run leaves, however deep it nests.
pub fn term(words: &[u32]) -> Result<Rc<Ml>, String> {
    let read = read_ml(words, 0, usize::MAX);
    read.map_err(|refusal| format!("the engine left words that are no term, from word {}", refusal.place))
}

/// The text of the term left; none after an error.
pub fn left(words: &[u32], width: usize) -> Result<String, String> {
    if words.is_empty() {
        return Ok(String::new());
    }
    Ok(pretty(Node::Ml(&term(words)?), &Style { width, ..Style::PLAIN }) + "\n")
}
