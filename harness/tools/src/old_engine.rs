//! The C functions of an archive of the landing before, under other names, so that the benchmarks can time both in one
//! run. build.rs makes it from the archive that RECIPE_OLD_ARCHIVE names; without one there is none.
//!
//! What the old functions answer with is declared here as the old archive has it: a request that adds a field to
//! `RecipeRun` changes engine.rs alone, and this struct follows when that landing is the one before.

use crate::engine::Check;

/// A run's answer as the old archive gives it.
#[repr(C)]
#[derive(Clone, Copy, Debug, Default, PartialEq, Eq)]
pub struct OldRun {
    pub refusal: u32,
    pub place: u32,
    pub end: u32,
    pub code: u32,
    pub steps: u32,
    pub left: u32,
    pub wanted: u32,
    pub calls: u32,
    pub conversions: u32,
    pub others: u32,
}

/// The old run of a file under a limit with two lent buffers.
pub type Run = fn(&[u8], u32, &mut [u32], &mut [u32]) -> OldRun;

#[cfg(old_archive)]
mod linked {
    #![allow(unsafe_code)]

    mod c {
        extern "C" {
            pub fn old_recipe_check(file: *const u8, file_len: usize) -> u64;
            pub fn old_recipe_run(
                file: *const u8,
                file_len: usize,
                limit: u32,
                first: *mut u32,
                first_len: usize,
                second: *mut u32,
                second_len: usize,
            ) -> super::super::OldRun;
        }
    }

    pub fn check(file: &[u8]) -> u64 {
        // Safe: the pointer and the length are a slice's, which is never null.
        unsafe { c::old_recipe_check(file.as_ptr(), file.len()) }
    }

    pub fn run(file: &[u8], limit: u32, first: &mut [u32], second: &mut [u32]) -> super::OldRun {
        let (first, first_len) = (first.as_mut_ptr(), first.len());
        let (second, second_len) = (second.as_mut_ptr(), second.len());
        // Safe: pointers and lengths are those of slices, the two that are written being apart.
        unsafe { c::old_recipe_run(file.as_ptr(), file.len(), limit, first, first_len, second, second_len) }
    }
}

/// The old check, if an old archive is linked.
pub fn linked_check() -> Option<Check> {
    #[cfg(old_archive)]
    return Some(linked::check);
    #[cfg(not(old_archive))]
    None
}

/// The old run, if an old archive is linked.
pub fn linked_run() -> Option<Run> {
    #[cfg(old_archive)]
    return Some(linked::run);
    #[cfg(not(old_archive))]
    None
}
