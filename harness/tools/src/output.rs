//! What the programs print.

use std::fmt::Display;
use std::io::{stdout, Write};

/// Prints a line. That nobody reads it is no fault: the work goes on, and its status counts.
pub fn say(line: impl Display) {
    let _ = writeln!(stdout(), "{line}");
}
