//! The fuzzer: libFuzzer makes inputs by the coverage of the model and the reader, and each is tried on one target. `run` builds
//! and starts it.

use std::ffi::{c_char, c_int, CString};
use std::sync::OnceLock;
use targets::engine::Engine;
use targets::{planted, Target, TARGETS};

/// Names the target; an environment variable and no argument, because libFuzzer starts itself anew with its own arguments alone.
const TARGET: &str = "FUZZ_TARGET";

/// Names an error to plant in the engine's place, so that one sees it found.
const PLANTED: &str = "FUZZ_PLANTED";

/// The model nests as deep as terms do: more than the deepest term that an input can come to needs.
const STACK: usize = 1 << 30;

/// What each input is tried on.
static TRIED: OnceLock<(Target, Engine)> = OnceLock::new();

/// What libFuzzer calls for each input.
type Callback = extern "C" fn(*const u8, usize) -> c_int;

extern "C" {
    /// libFuzzer's own main, with another program around it.
    fn LLVMFuzzerRunDriver(argc: *mut c_int, argv: *mut *mut *mut c_char, callback: Callback) -> c_int;
}

fn main() {
    match tried() {
        Ok(tried) => drop(TRIED.set(tried)),
        Err(message) => {
            eprintln!("fuzz: {message}");
            std::process::exit(2);
        }
    }
    std::process::exit(model::stack::on_stack(STACK, drive));
}

/// The target and the engine that the environment asks for.
fn tried() -> Result<(Target, Engine), String> {
    let name = std::env::var(TARGET).unwrap_or_default();
    let target = TARGETS.iter().find(|(known, _)| *known == name);
    let names = TARGETS.map(|(known, _)| known).join(", ");
    let (_, target) = target.ok_or(format!("{TARGET} is to be one of {names}, not `{name}`"))?;
    let engine = match std::env::var(PLANTED) {
        Ok(error) => planted::engine(&error)?,
        Err(_) => Engine::linked().ok_or("the engine is not linked")?,
    };
    Ok((*target, engine))
}

/// Runs libFuzzer with this program's arguments.
fn drive() -> c_int {
    let words: Vec<CString> = std::env::args().filter_map(|word| CString::new(word).ok()).collect();
    let mut pointers: Vec<*mut c_char> = words.iter().map(|word| word.as_ptr().cast_mut()).collect();
    let mut count = pointers.len() as c_int;
    pointers.push(std::ptr::null_mut());
    let mut start = pointers.as_mut_ptr();
    // Safe: count and pointers are those of a C main, end with a null, and live until the program ends.
    unsafe { LLVMFuzzerRunDriver(&mut count, &mut start, try_input) }
}

/// Tries one input on the target; what it finds is printed, and the program ends by a signal, as libFuzzer wants it.
extern "C" fn try_input(data: *const u8, size: usize) -> c_int {
    let bytes = match size {
        0 => &[],
        // Safe: libFuzzer lends so many bytes until this returns.
        _ => unsafe { std::slice::from_raw_parts(data, size) },
    };
    let (target, engine) = TRIED.get().expect("main sets it before it starts libFuzzer");
    if let Err(shown) = target(engine, bytes) {
        eprintln!("fuzz: found\n{shown}");
        std::process::abort();
    }
    0
}
