//! The engine's C functions, as include/recipe.h declares them, and one that is only for measuring. With old_engine.rs, terminal.rs and the
//! fuzzer's main.rs the only unsafe code of the harness.
//!
//! Without the features `check` and `run` there is no engine, and the archive is not linked.

/// A run's answer as the engine gives it: refusal 0 if it ended; end 0 value, 1 spent, 2 error, 3 full.
#[repr(C)]
#[derive(Clone, Copy, Debug, Default, PartialEq, Eq)]
pub struct RecipeRun {
    pub refusal: u32,
    pub place: u32,
    pub end: u32,
    pub code: u32,
    pub steps: u32,
    pub left: u32,
    pub wanted: u32,
    pub calls: u32,
    pub conversions: u32,
    pub others: u32,
}

/// A shop's price table: cents for 1,000 pulses, by pump and band.
#[repr(C)]
#[derive(Clone, Copy, Debug, Default, PartialEq, Eq)]
pub struct RecipePrices {
    pub cents: [[u32; 3]; 9],
}

/// A pricing's answer as the engine gives it: the run, and at a value the charges of pumps 1 to 9 and their total.
#[repr(C)]
#[derive(Clone, Copy, Debug, Default, PartialEq, Eq)]
pub struct RecipePriced {
    pub run: RecipeRun,
    pub total: u64,
    pub charge: [u64; 9],
}

/// A card's answer as the engine gives it: the pricing, and the length of the card, 0 where none is written.
#[repr(C)]
#[derive(Clone, Copy, Debug, Default, PartialEq, Eq)]
pub struct RecipeCard {
    pub priced: RecipePriced,
    pub bytes: u32,
}

/// A save's answer as the engine gives it: refusal 0 if the file is written, and its length.
#[repr(C)]
#[derive(Clone, Copy, Debug, Default, PartialEq, Eq)]
pub struct RecipeSaved {
    pub refusal: u32,
    pub place: u32,
    pub bytes: u32,
}

/// The check of a file: 0 for accepted, else number + 256 x place.
pub type Check = fn(&[u8]) -> u64;

/// The run of a file under a limit with two lent buffers.
pub type Run = fn(&[u8], u32, &mut [u32], &mut [u32]) -> RecipeRun;

/// The pricing of a file by a price table, under a limit with two lent buffers.
pub type Price = fn(&RecipePrices, &[u8], u32, &mut [u32], &mut [u32]) -> RecipePriced;

/// The same with the batch card in a third lent buffer.
pub type Card = fn(&RecipePrices, &[u8], u32, &mut [u32], &mut [u32], &mut [u8]) -> RecipeCard;

/// The save of a declared type's words and a term's in a lent buffer.
pub type Save = fn(&[u32], &[u32], &mut [u8]) -> RecipeSaved;

/// The reader of nodes: how many words the whole node at a place of some words has; 0 where none starts there.
pub type Node = fn(&[u32], usize) -> usize;

#[cfg(feature = "check")]
mod linked {
    #![allow(unsafe_code)]

    mod c {
        extern "C" {
            pub fn recipe_check(file: *const u8, file_len: usize) -> u64;
            #[cfg(feature = "run")]
            pub fn recipe_run(
                file: *const u8,
                file_len: usize,
                limit: u32,
                first: *mut u32,
                first_len: usize,
                second: *mut u32,
                second_len: usize,
            ) -> super::super::RecipeRun;
            #[cfg(feature = "run")]
            pub fn recipe_price(
                prices: *const super::super::RecipePrices,
                file: *const u8,
                file_len: usize,
                limit: u32,
                first: *mut u32,
                first_len: usize,
                second: *mut u32,
                second_len: usize,
            ) -> super::super::RecipePriced;
            #[cfg(feature = "run")]
            pub fn recipe_card(
                prices: *const super::super::RecipePrices,
                file: *const u8,
                file_len: usize,
                limit: u32,
                first: *mut u32,
                first_len: usize,
                second: *mut u32,
                second_len: usize,
                card: *mut u8,
                card_len: usize,
            ) -> super::super::RecipeCard;
            #[cfg(feature = "run")]
            pub fn recipe_save(
                declared: *const u32,
                declared_len: usize,
                term: *const u32,
                term_len: usize,
                out: *mut u8,
                out_len: usize,
            ) -> super::super::RecipeSaved;
            #[cfg(feature = "run")]
            pub fn recipe_node(words: *const u32, words_len: usize, at: usize) -> usize;
            // Not in the header: for the benchmarks and the comparison alone.
            #[cfg(feature = "run")]
            pub fn recipe_node_walked(words: *const u32, words_len: usize, at: usize) -> usize;
        }
    }

    pub fn check(file: &[u8]) -> u64 {
        // Safe: the pointer and the length are a slice's, which is never null.
        unsafe { c::recipe_check(file.as_ptr(), file.len()) }
    }

    #[cfg(feature = "run")]
    pub fn run(file: &[u8], limit: u32, first: &mut [u32], second: &mut [u32]) -> super::RecipeRun {
        let (first, first_len) = (first.as_mut_ptr(), first.len());
        let (second, second_len) = (second.as_mut_ptr(), second.len());
        // Safe: pointers and lengths are those of slices, the two that are written being apart.
        unsafe { c::recipe_run(file.as_ptr(), file.len(), limit, first, first_len, second, second_len) }
    }

    #[cfg(feature = "run")]
    pub fn price(
        prices: &super::RecipePrices,
        file: &[u8],
        limit: u32,
        first: &mut [u32],
        second: &mut [u32],
    ) -> super::RecipePriced {
        let (first, first_len) = (first.as_mut_ptr(), first.len());
        let (second, second_len) = (second.as_mut_ptr(), second.len());
        // Safe: the prices are a reference; pointers and lengths are those of slices, the two that are written being apart.
        unsafe { c::recipe_price(prices, file.as_ptr(), file.len(), limit, first, first_len, second, second_len) }
    }

    #[cfg(feature = "run")]
    pub fn card(
        prices: &super::RecipePrices,
        file: &[u8],
        limit: u32,
        first: &mut [u32],
        second: &mut [u32],
        card: &mut [u8],
    ) -> super::RecipeCard {
        let (from, from_len) = (file.as_ptr(), file.len());
        let (first, first_len) = (first.as_mut_ptr(), first.len());
        let (second, second_len) = (second.as_mut_ptr(), second.len());
        let (card, card_len) = (card.as_mut_ptr(), card.len());
        // Safe: the prices are a reference; pointers and lengths are those of slices, the three that are written being apart.
        unsafe { c::recipe_card(prices, from, from_len, limit, first, first_len, second, second_len, card, card_len) }
    }

    #[cfg(feature = "run")]
    pub fn save(declared: &[u32], term: &[u32], out: &mut [u8]) -> super::RecipeSaved {
        let (declared, declared_len) = (declared.as_ptr(), declared.len());
        let (out, out_len) = (out.as_mut_ptr(), out.len());
        // Safe: pointers and lengths are those of slices, the one that is written being apart from both that are read.
        unsafe { c::recipe_save(declared, declared_len, term.as_ptr(), term.len(), out, out_len) }
    }

    #[cfg(feature = "run")]
    pub fn node(words: &[u32], at: usize) -> usize {
        // Safe: the pointer and the length are a slice's; the place may be any.
        unsafe { c::recipe_node(words.as_ptr(), words.len(), at) }
    }

    #[cfg(feature = "run")]
    pub fn node_walked(words: &[u32], at: usize) -> usize {
        // Safe: the pointer and the length are a slice's; the place may be any.
        unsafe { c::recipe_node_walked(words.as_ptr(), words.len(), at) }
    }
}

/// The engine's check, if it is linked.
pub fn linked_check() -> Option<Check> {
    #[cfg(feature = "check")]
    return Some(linked::check);
    #[cfg(not(feature = "check"))]
    None
}

/// The engine's run, if it is linked.
pub fn linked_run() -> Option<Run> {
    #[cfg(feature = "run")]
    return Some(linked::run);
    #[cfg(not(feature = "run"))]
    None
}

/// The engine's pricing, if it is linked.
pub fn linked_price() -> Option<Price> {
    #[cfg(feature = "run")]
    return Some(linked::price);
    #[cfg(not(feature = "run"))]
    None
}

/// The engine's card, if it is linked.
pub fn linked_card() -> Option<Card> {
    #[cfg(feature = "run")]
    return Some(linked::card);
    #[cfg(not(feature = "run"))]
    None
}

/// The engine's save, if it is linked.
pub fn linked_save() -> Option<Save> {
    #[cfg(feature = "run")]
    return Some(linked::save);
    #[cfg(not(feature = "run"))]
    None
}

/// The engine's reader of nodes, if it is linked.
pub fn linked_node() -> Option<Node> {
    #[cfg(feature = "run")]
    return Some(linked::node);
    #[cfg(not(feature = "run"))]
    None
}

/// The same reader without the short way for words without parts, if it is linked.
pub fn linked_node_walked() -> Option<Node> {
    #[cfg(feature = "run")]
    return Some(linked::node_walked);
    #[cfg(not(feature = "run"))]
    None
}
