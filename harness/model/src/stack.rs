//! A thread with room for recursion into the deepest terms of a run.

use std::thread::Builder;

/// Enough for trees of some 33,000 levels, at more than 10,000 bytes a level.
const STACK: usize = 512 << 20;

/// Does the work on a thread of its own with a large stack. A panic in it is passed on.
pub fn on_large_stack<T: Send>(work: impl FnOnce() -> T + Send) -> T {
    on_stack(STACK, work)
}

/// The same with a stack of the given size.
pub fn on_stack<T: Send>(bytes: usize, work: impl FnOnce() -> T + Send) -> T {
    std::thread::scope(|scope| {
        let worker = Builder::new().stack_size(bytes).spawn_scoped(scope, work);
        match worker.expect("a thread with a large stack").join() {
            Ok(result) => result,
            Err(panic) => std::panic::resume_unwind(panic),
        }
    })
}
