//! `recipe step`: the terms of the engine's run in one pass, the node whose turn it is, its rule, and what the step is counted
//! as; at the end where an error was made, and how often each rule was used.

use super::blame::Blame;
use super::input::read_input;
use super::repeats::Repeats;
use super::run::{capacity, count, ended, steps};
use super::shown::{next, rules, Manner};
use super::walk::{Due, Kept, Walk};
use super::{take_width, Command, Desk, Failure, Outcome};
use crate::args::Args;
use crate::engine::RecipeRun;
use model::rules::Rule;
use std::collections::VecDeque;
use std::io::Write;

pub const COMMAND: Command = Command { name: "step", help: HELP, work: step };

const HELP: &str = "\
usage: recipe step [FILE] [--from STEP] [--to STEP] [--last STEPS] [--rule NAME] [--whole] [--limit STEPS]
                   [--words CAPACITY] [--width COLUMNS]

Shows the terms of a run, with two buffers of 4,096 words: how many words each has, the node whose turn it is in double
brackets, the rule that comes next, and in parentheses what that step is counted as: a call on an app or a fix, a
conversion on an ms or an sm, else an other. A term that does not fit in a line is cut to that node and what is next around
it, with .. for the rest; --whole shows all of it. The end is told with the counts of all its steps and, after an error,
where it was made, as `recipe run` tells them; then how often each rule was used. Reads standard input where no FILE is
named. A line has as many columns as the terminal, or 100; --width tells another number, at least 20. Status 0: shown;
1: refused.

--from STEP   starts at this step, not at 0
--to STEP     stops at this step; without it, after 1,000 steps shown
--last STEPS  shows only the last steps of the run, and its end
--rule NAME   shows only steps whose rule has NAME in its name, in any case; an unknown one lists all names
--limit STEPS how far --last and --rule go, where nothing else stops them: 1,000,000 steps

A run that comes back to a term that it has had repeats the steps between for ever: that is said, and the run is followed
no further, unless --from asks for later steps.

An error that a rule makes comes from the last step but one: --last 2 shows the node that it comes from.
";

/// Steps shown where none is named to stop at.
const SHOWN: u32 = 1_000;

/// What is asked for.
struct Asked {
    from: u32,
    /// The last step that is shown, and the option that goes further.
    to: (u32, &'static str),
    /// How many terms are shown at most.
    most: u64,
    last: Option<usize>,
    rule: Option<String>,
    whole: bool,
}

impl Asked {
    /// What the command says.
    fn new(args: &mut Args) -> Result<Asked, Failure> {
        const NONE: u64 = u64::MAX;
        let [from, to, last] = [args.number("--from", NONE)?, args.number("--to", NONE)?, args.number("--last", NONE)?];
        let limit = steps(args.number("--limit", 1_000_000)?)?;
        let rule = args.named("--rule", "a part of a rule's name")?;
        let whole = args.flag("--whole");
        if last != NONE && (from != NONE || to != NONE) {
            return Err("--last shows the end of the run; leave out --from and --to".into());
        }
        let start = if from == NONE { 0 } else { steps(from)? };
        let to = match to {
            NONE if last != NONE || rule.is_some() => (limit, "--limit"),
            NONE => (start.saturating_add(SHOWN), "--to"),
            to => (steps(to)?, "--to"),
        };
        if to.0 < start {
            return Err(Failure::Other(format!("{} {} comes before --from {start}", to.1, to.0)));
        }
        let most = if to.1 == "--limit" && last == NONE { u64::from(SHOWN) } else { NONE };
        let last = (last != NONE).then_some(last.min(u64::from(u32::MAX)) as usize);
        rule.as_deref().map_or(Ok(()), known)?;
        Ok(Asked { from: start, to, most, last, rule: rule.map(|name| name.to_lowercase()), whole })
    }

    /// Whether a step is one of those asked for, as far as that is known before the end.
    fn shows(&self, steps: u32, due: &Due) -> bool {
        let named = |name: &String| next(due).to_lowercase().contains(name);
        steps >= self.from && self.rule.as_ref().is_none_or(named)
    }
}

/// A fault where no rule has the name, with the names that there are.
fn known(name: &str) -> Result<(), Failure> {
    let lower = name.to_lowercase();
    if Rule::ALL.iter().any(|rule| rule.name().to_lowercase().contains(&lower)) {
        return Ok(());
    }
    let names: Vec<&str> = Rule::ALL.iter().map(|rule| rule.name()).collect();
    Err(Failure::Other(format!("no rule has {name} in its name; the names are\n  {}", names.join("\n  "))))
}

/// A run that is shown step by step.
struct Stepper<'a> {
    asked: &'a Asked,
    manner: Manner<'a>,
    walk: Walk,
    /// The last terms, where only those are asked for.
    ring: VecDeque<Kept>,
    shown: u64,
    output: &'a mut (dyn Write + Send),
}

/// Walks the run in one pass, and shows of it what is asked for.
fn step(mut args: Args, desk: &mut Desk<'_>) -> Outcome {
    let capacity = capacity(&mut args)?;
    let asked = Asked::new(&mut args)?;
    take_width(&mut args, desk)?;
    let input = read_input(args, desk)?;
    let walk = Walk::new(&desk.engine, &input, capacity)?;
    let manner = Manner { input: &input, whole: asked.whole };
    let (ring, output) = (VecDeque::new(), &mut *desk.output);
    Stepper { asked: &asked, manner, walk, ring, shown: 0, output }.go()
}

impl Stepper<'_> {
    /// From step to step until the run ends, is shown as far as asked, or repeats itself.
    fn go(mut self) -> Outcome {
        let mut repeats = Some(Repeats::default());
        loop {
            if self.walk.due().is_none() {
                return self.end(&self.walk.result());
            }
            if self.repeats(&mut repeats)? {
                return Ok(());
            }
            self.show()?;
            if self.walk.steps() == self.asked.to.0 || self.shown == self.asked.most {
                return self.stop();
            }
            if let Some(result) = self.walk.step()? {
                return self.end(&result);
            }
        }
    }

    /// Says that the term is one that the run has had, once. Answers whether nothing more is to be shown.
    fn repeats(&mut self, repeats: &mut Option<Repeats>) -> Result<bool, Failure> {
        let (input, step) = (self.manner.input, self.walk.steps());
        let earlier = repeats.as_mut().and_then(|repeats| repeats.earlier(input, self.walk.words(), step));
        let Some(earlier) = earlier else { return Ok(false) };
        *repeats = None;
        self.last()?;
        let again = count(step - earlier, "step");
        writeln!(self.output, "step {step} is the term of step {earlier} again: the run repeats {again} for ever")?;
        Ok(step >= self.asked.from)
    }

    /// Shows the term of this step where it is asked for, or keeps it where only the last are.
    fn show(&mut self) -> Outcome {
        let Some(due) = self.walk.due() else { return Ok(()) };
        if !self.asked.shows(self.walk.steps(), due) {
            return Ok(());
        }
        if let Some(last) = self.asked.last {
            self.ring.push_back(self.walk.kept());
            self.ring.drain(..self.ring.len().saturating_sub(last));
            return Ok(());
        }
        self.shown += 1;
        self.walk.confirm()?;
        self.put(&self.walk.kept())
    }

    fn put(&mut self, kept: &Kept) -> Outcome {
        self.walk.confirm_kept(kept)?;
        Ok(self.output.write_all(self.manner.shown(kept)?.as_bytes())?)
    }

    /// Shows the last terms, where only those are asked for.
    fn last(&mut self) -> Outcome {
        while let Some(kept) = self.ring.pop_front() {
            self.put(&kept)?;
        }
        Ok(())
    }

    fn stop(&mut self) -> Outcome {
        self.last()?;
        Ok(writeln!(self.output, "stopped at step {}; {} goes further", self.walk.steps(), self.asked.to.1)?)
    }

    /// The last terms, the value if there is one, the end, where an error was made, and the rules.
    fn end(&mut self, result: &RecipeRun) -> Outcome {
        self.last()?;
        if self.walk.due().is_none() && self.asked.rule.is_none() {
            self.put(&self.walk.kept())?;
        }
        let carried = self.walk.carried();
        let told = match Blame::of(carried).filter(|_| result.end == model::End::Error as u32) {
            Some(blame) => blame.told(self.manner.input, result)?,
            None => ended(result, None),
        };
        Ok(self.output.write_all((told + &rules(&carried.rules)).as_bytes())?)
    }
}
