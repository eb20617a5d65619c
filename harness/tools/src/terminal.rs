//! How wide the terminal is that standard output goes to. Beside engine.rs and old_engine.rs this is the only unsafe code: the system
//! is asked through the C library, and fills a struct that is lent to it for the call.
#![allow(unsafe_code)]

use std::ffi::{c_int, c_ulong};
use std::io::{stdout, IsTerminal};

/// What the system tells of a terminal, as the C library has it.
#[repr(C)]
#[derive(Default)]
struct Window {
    rows: u16,
    columns: u16,
    across: u16,
    down: u16,
}

/// The number of the question for a terminal's size.
#[cfg(any(target_os = "macos", target_os = "freebsd", target_os = "netbsd", target_os = "openbsd"))]
const SIZE: c_ulong = 0x4008_7468;
#[cfg(not(any(target_os = "macos", target_os = "freebsd", target_os = "netbsd", target_os = "openbsd")))]
const SIZE: c_ulong = 0x5413;

#[cfg(unix)]
extern "C" {
    fn ioctl(file: c_int, question: c_ulong, ...) -> c_int;
}

/// The columns of the terminal that standard output goes to, if it goes to one that tells.
#[cfg(unix)]
pub fn columns() -> Option<usize> {
    const STANDARD_OUTPUT: c_int = 1;
    if !stdout().is_terminal() {
        return None;
    }
    let mut window = Window::default();
    // The question writes a Window and nothing else, and keeps no pointer to it.
    let told = unsafe { ioctl(STANDARD_OUTPUT, SIZE, &mut window as *mut Window) };
    (told == 0 && window.columns > 0).then_some(usize::from(window.columns))
}

/// Elsewhere nothing is known of terminals.
#[cfg(not(unix))]
pub fn columns() -> Option<usize> {
    None
}
