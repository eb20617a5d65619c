//! The program as a whole: from its words on the command line to what it prints and its status.

use super::{Command, Desk, Failure, Outcome, COMMANDS};
use crate::args::Args;
use model::text::nearest;
use model::{on_large_stack, End};
use std::io::Write;

const HELP: &str = "\
usage: recipe make | show | check | run | step | price | card | outline | page   [FILE] [options]

make     a text to a recipe file
show     a recipe file as text
check    whether the engine accepts a recipe, a refusal explained
run      the end of a run, where its steps went, and the term left; with --save it is kept, to go on later
step     the term at each step of a run
price    the end of a run, and what each pump and the can are charged
card     the batch card of a can, a line for each pump and one for the total
outline  the nodes of a recipe, one to a line, each with its place
page     a run as a page to look at in a browser

`recipe COMMAND --help` says more. Status:
0  done; of run, price and card: the run came to a value
1  the file is refused, or a price, a card or a save; why is said on standard error
2  a file cannot be read or written, or the command or the text is not understood; why is said on standard error
3  the run ended with an error (run, price and card)
4  the run was spent: the steps lent were made (run, price and card)
5  the run was full: the next term has more words than were lent (run, price and card)
";

/// Does what the words ask for and answers with the status. That nobody reads what is printed is no fault.
pub fn program(words: Vec<String>, desk: &mut Desk<'_>, errors: &mut dyn Write) -> u8 {
    let mut args = Args::new(words);
    let help = args.flag("--help");
    let name = args.word();
    let command = COMMANDS.iter().find(|command| Some(command.name) == name.as_deref());
    let outcome = match (command, help) {
        (Some(command), true) => print(desk, command.help),
        (None, true) => print(desk, HELP),
        (Some(command), false) => work(command, args, desk),
        (None, false) => Err(Failure::Other(no_command(name.as_deref()))),
    };
    let (status, message) = match outcome {
        Ok(()) | Err(Failure::Unread) => (0, std::mem::take(&mut desk.note)),
        Err(Failure::Refused(why)) => (1, why),
        Err(Failure::Ended(end, said)) => (status(end), said),
        Err(Failure::Other(message)) => (2, format!("recipe: {message}\n")),
    };
    let _ = errors.write_all(message.as_bytes());
    status
}

/// What is said where no command is named, or none that there is.
fn no_command(name: Option<&str>) -> String {
    let near = name.and_then(|name| nearest(name, COMMANDS.iter().map(|command| command.name)));
    match (near, COMMANDS.map(|command| command.name)) {
        (Some(near), _) => format!("no command is called {}; did you mean {near}?", name.unwrap_or_default()),
        (None, [others @ .., last]) => format!("{} or {last} is due; see --help", others.join(", ")),
    }
}

/// The status that tells an end.
fn status(end: End) -> u8 {
    match end {
        End::Value => 0,
        End::Error => 3,
        End::Spent => 4,
        End::Full => 5,
    }
}

/// The command's work, on a stack for the deepest terms.
fn work(command: &Command, args: Args, desk: &mut Desk<'_>) -> Outcome {
    on_large_stack(|| {
        (command.work)(args, desk)?;
        Ok(desk.output.flush()?)
    })
}

/// Prints a text whole.
fn print(desk: &mut Desk<'_>, text: &str) -> Outcome {
    desk.output.write_all(text.as_bytes())?;
    Ok(desk.output.flush()?)
}
