//! Where an error was made: by a rule at a node, or by a wrong that the recipe has itself, each with its place in the text.

use super::carried::{Carried, Failed, Next};
use super::cut::{line, marked, names};
use super::due::is_number;
use super::explain::stands;
use super::flat::{behind, is_boundary, kind_at};
use super::input::Input;
use super::run::ended;
use super::walk::{Origin, Walk};
use super::{Engine, Failure};
use crate::engine::RecipeRun;
use crate::progress::Progress;
use model::file::words_of;
use model::kinds::{ml, row_of, scheme};
use model::rules::Rule;
use model::text::head;
use model::End;
use std::io::{stderr, IsTerminal};

/// Who made an error.
pub enum Blame {
    /// A wrong of the recipe, by its place in the file.
    Own { code: u32, place: usize },
    /// A rule, and at which step: the number under which `recipe step` shows it.
    Rule { step: u32, failed: Failed },
}

/// Steps that are looked through at most.
const MOST_STEPS: u32 = 2_000_000;

/// Steps between two looks at the clock.
const EVERY: u32 = 1 << 16;

/// The end of a run in a line, where its steps went in another, and of an error where it was made. That is found by walking the
/// run once more beside the engine, in as many words.
pub fn told_end(engine: &Engine, input: &Input, result: &RecipeRun, capacity: usize) -> Result<String, Failure> {
    if result.end != End::Error as u32 {
        return Ok(ended(result, None));
    }
    if result.steps > MOST_STEPS {
        let not =
            format!("where it was made is not told: only the first {MOST_STEPS} steps are looked through for it\n");
        return Ok(ended(result, None) + &not);
    }
    let walk = Walk::new(engine, input, capacity).and_then(|walk| walked(walk, result.steps));
    match walk.ok().filter(|walk| walk.result() == *result).and_then(|walk| Blame::of(walk.carried())) {
        Some(blame) => Ok(blame.told(input, result)?),
        None => Ok(ended(result, None) + OTHERWISE),
    }
}

/// What is said where the walk fails: of a run that the engine has made it never does, if both are right.
const OTHERWISE: &str =
    "where it was made is not told: the program's own steps are not the engine's, which is a fault of one of them\n";

/// The run walked to its end, or to so many steps. Who waits at a terminal is told how far it is.
fn walked(mut walk: Walk, steps: u32) -> Result<Walk, Failure> {
    let is_watched = stderr().is_terminal();
    let mut progress = Progress::new("looking for where the error was made", u64::from(steps));
    while walk.steps() < steps && walk.step()?.is_none() {
        if is_watched && walk.steps().is_multiple_of(EVERY) {
            progress.done(u64::from(walk.steps()));
        }
    }
    Ok(walk)
}

impl Blame {
    /// Of a run that has come to an error.
    pub fn of(carried: &Carried) -> Option<Blame> {
        let due = carried.due?;
        let Next::Raised(code) = due.next else { return None };
        Some(match carried.failed.clone() {
            Some(failed) => Blame::Rule { step: carried.steps.saturating_sub(2), failed },
            None => Blame::Own { code, place: carried.term.origins[due.place].place },
        })
    }

    /// The end of a run that ended so, with where the error was made.
    pub fn told(&self, input: &Input, result: &RecipeRun) -> Result<String, String> {
        let by_rule = matches!(self, Blame::Rule { .. });
        Ok(ended(result, Some(by_rule)) + &self.lines(input)?)
    }

    /// Where the error was made.
    fn lines(&self, input: &Input) -> Result<String, String> {
        let (step, failed) = match self {
            Blame::Own { code, place } => {
                let stands = stands(input, *place);
                return Ok(format!("made by the recipe's own wrong {code} at {stands}\n"));
            }
            Blame::Rule { step, failed } => (step, failed),
        };
        let file = File::new(input)?;
        let origin = failed.term.origins[failed.due.place];
        let start = format!("from the {} at {}: ", file.name(origin.place), stands(input, origin.place));
        let node = file.node(input, origin.place, room(input, &start))?;
        let made = format!("made by a rule at step {step}: {}\n{start}{node}\n", failed.rule.name());
        let values = values(failed).into_iter().map(|(what, place)| value(input, &file, failed, (what, place)));
        Ok(made + &values.collect::<Result<String, String>>()?)
    }
}

/// The columns that are left of a line; a node has a few always.
fn room(input: &Input, rest: &str) -> usize {
    input.width.saturating_sub(rest.chars().count()).max(20)
}

/// The values that a rule looked at and that did not fit, by their first words in the term.
fn values(failed: &Failed) -> Vec<(&'static str, usize)> {
    let (words, first) = (&failed.term.words, failed.due.place + 1);
    let place = match failed.rule {
        Rule::MlAddOver | Rule::SchemeAddOver => {
            return vec![("the first number", first), ("the second number", first + 1)];
        }
        Rule::SchemeAddOther | Rule::SchemeSubtractOther if is_number(kind_at(words, first)) => first + 1,
        _ if is_boundary(kind_at(words, failed.due.place)) => behind(words, first),
        _ => first,
    };
    vec![("the value", place)]
}

/// A value and where it comes from, in a line.
fn value(input: &Input, file: &File, failed: &Failed, value: (&str, usize)) -> Result<String, String> {
    let (what, place) = value;
    let Origin { place: from, made } = failed.term.origins[place];
    let stands = stands(input, from);
    let comes = match kind_at(&file.words, from) {
        // A number or nil that has crossed comes from where it was written.
        ml::NUMBER | ml::NIL | scheme::NUMBER | scheme::NIL => format!(", from {stands}"),
        _ if made => format!(", made by the {} at {stands}", file.name(from)),
        _ => format!(", from {stands}"),
    };
    let text = line(&failed.term.words, &names(input, &failed.term.origins), Some(place))?;
    let text = marked(&text, room(input, &format!("{what}: {comes}")));
    Ok(format!("{what}: {text}{comes}\n"))
}

/// The words of a file.
struct File {
    words: Vec<u32>,
    /// Where its term starts.
    start: usize,
}

impl File {
    fn new(input: &Input) -> Result<File, String> {
        let words = words_of(&input.bytes).map_err(|_| "the engine has run a file of a wrong size")?;
        let start = words[3] as usize;
        Ok(File { words, start })
    }

    /// What a node is called in a sentence.
    fn name(&self, place: usize) -> &'static str {
        let word = self.words[place];
        match is_boundary(word % 256) {
            true => "boundary",
            false => row_of(word).map_or("node", |row| head(row, word / 256)),
        }
    }

    /// The node at a place as the text has it, cut to so many columns.
    fn node(&self, input: &Input, place: usize, width: usize) -> Result<String, String> {
        let text = line(&self.words[self.start..], input.names(), Some(place - self.start))?;
        Ok(marked(&text, width))
    }
}
