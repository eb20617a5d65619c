//! `recipe check`: the engine's check, a refusal explained.

use super::explain::explain;
use super::input::read_input;
use super::{take_width, without, Command, Desk, Failure, Outcome};
use crate::args::Args;
use model::Refusal;

pub const COMMAND: Command = Command { name: "check", help: HELP, work: check };

const HELP: &str = "\
usage: recipe check [FILE] [--width COLUMNS]

Says whether the engine accepts a recipe file or the file of a text. A refusal is explained on standard error in a
sentence, and where it has a place, that is shown: in double brackets in the term, or in the list of words. Of a term that
has no type, the node is shown that the engine names, its part that does not fit between << and >>, the type that is due
there and the one found, and the types of all its parts; of one that has another type than the declared one, both, the
first difference in double brackets. Long types and terms are cut, and .. stands for what is missing. Where two types
differ in the owners of their lumps alone, the owners are told. A line has as many columns as the terminal, or
100; --width tells another number, at least 20. Reads standard input where no FILE is named. Status 0: accepted; 1: refused.
";

/// The engine's answer in words.
fn check(mut args: Args, desk: &mut Desk<'_>) -> Outcome {
    let engine = desk.engine.check.ok_or(without("check"))?;
    take_width(&mut args, desk)?;
    let input = read_input(args, desk)?;
    match engine(&input.bytes) {
        0 => Ok(desk.output.write_all(b"accepted\n")?),
        answer => {
            let refusal = Refusal::new((answer % 256) as u32, (answer / 256) as usize);
            Err(Failure::Refused(explain(&input, &refusal)))
        }
    }
}
