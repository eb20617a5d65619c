//! The program `recipe`: recipes as text, made, shown, checked, run, saved, stepped through, priced, with a card or
//! without, outlined, and put on a page.

mod blame;
mod card;
mod carried;
mod check;
mod contracta;
mod cut;
mod due;
mod explain;
mod flat;
mod input;
mod make;
mod mismatch;
mod outline;
mod page;
mod places;
mod price;
mod prices;
mod program;
mod reading;
mod repeats;
mod run;
mod save;
mod show;
mod shown;
mod step;
mod walk;
mod whole;

use crate::args::Args;
use crate::engine::{linked_card, linked_check, linked_node, linked_price, linked_run, linked_save};
use crate::engine::{Card, Check, Node, Price, Run, Save};
use model::End;
use std::io::{Error, ErrorKind, Read, Write};

pub use input::Input;
pub use program::program;
pub use walk::{Due, Next, Origin, Walk};

/// The engine's functions, where there are any.
#[derive(Clone, Copy)]
pub struct Engine {
    pub check: Option<Check>,
    pub run: Option<Run>,
    pub price: Option<Price>,
    pub card: Option<Card>,
    pub save: Option<Save>,
    pub node: Option<Node>,
}

impl Engine {
    /// The functions that this program was built with.
    pub fn linked() -> Engine {
        let (check, run, price) = (linked_check(), linked_run(), linked_price());
        Engine { check, run, price, card: linked_card(), save: linked_save(), node: linked_node() }
    }
}

/// What a command works with: the engine, the columns that a printed line may have, standard input, where it prints, and a note.
pub struct Desk<'a> {
    pub engine: Engine,
    pub width: usize,
    pub input: &'a mut (dyn Read + Send),
    pub output: &'a mut (dyn Write + Send),
    /// What is said on standard error although all went well.
    pub note: String,
}

/// Why a command's status is not 0, or why it has not printed all it has to say on standard output.
pub enum Failure {
    /// The file is refused, and why.
    Refused(String),
    /// The run has ended otherwise than in a value; what is said of it on standard error.
    Ended(End, String),
    /// It cannot be read or written, or the command is not understood.
    Other(String),
    /// Nobody reads on, which is no fault.
    Unread,
}

impl From<String> for Failure {
    fn from(message: String) -> Failure {
        Failure::Other(message)
    }
}

impl From<&str> for Failure {
    fn from(message: &str) -> Failure {
        Failure::Other(message.into())
    }
}

impl From<Error> for Failure {
    fn from(fault: Error) -> Failure {
        match fault.kind() {
            ErrorKind::BrokenPipe => Failure::Unread,
            _ => Failure::Other(format!("cannot write: {fault}")),
        }
    }
}

/// The columns of a line where nothing tells them.
pub const WIDTH: usize = 100;

/// The columns of a line at least.
pub const LEAST_WIDTH: usize = 20;

/// Takes the columns of a line that the command asks for.
fn take_width(args: &mut Args, desk: &mut Desk<'_>) -> Result<(), String> {
    let width = args.number("--width", desk.width as u64)?.min(1 << 20) as usize;
    if width < LEAST_WIDTH {
        return Err(format!("--width {width} is too narrow; a line has at least {LEAST_WIDTH} columns"));
    }
    desk.width = width;
    Ok(())
}

/// All printed, or a failure.
pub type Outcome = Result<(), Failure>;

/// A command of the program: its name, what `--help` prints, and its work.
pub struct Command {
    pub name: &'static str,
    pub help: &'static str,
    pub work: fn(Args, &mut Desk<'_>) -> Outcome,
}

/// All commands.
pub const COMMANDS: [Command; 9] = [
    make::COMMAND,
    show::COMMAND,
    check::COMMAND,
    run::COMMAND,
    step::COMMAND,
    price::COMMAND,
    card::COMMAND,
    outline::COMMAND,
    page::COMMAND,
];

/// The failure of a command that needs the engine in a program built without it.
fn without(feature: &str) -> Failure {
    Failure::Other(format!("built without the engine; build with --features {feature}"))
}
