//! Words to save, in order or not, and recipes whose runs nest deep or grow large before they end.

use super::damage::telling_word;
use super::plan::{damaged_file, well_typed_file};
use super::text::file_of_text;
use crate::random::Random;
use model::file::{regions, words_of};

/// The words of a type and of a term: of a recipe, damaged or not; of two recipes; of any words; now and then none.
pub fn any_words(random: &mut Random) -> (Vec<u32>, Vec<u32>) {
    let (mut declared, mut term) = match random.below(10) {
        0..5 => words_in(random, well_typed_file),
        5..8 => words_in(random, damaged_file),
        8 => (words_in(random, well_typed_file).0, words_in(random, well_typed_file).1),
        _ => (rubbish(random), rubbish(random)),
    };
    match random.below(40) {
        0 => declared.clear(),
        1 => term.clear(),
        2 => std::mem::swap(&mut declared, &mut term),
        _ => {}
    }
    (declared, term)
}

/// The words of a file; where its header is not in order, all of its words parted somewhere.
fn words_in(random: &mut Random, make: fn(&mut Random) -> Vec<u8>) -> (Vec<u32>, Vec<u32>) {
    let Ok(words) = words_of(&make(random)) else { return (rubbish(random), rubbish(random)) };
    match regions(&words) {
        Ok(regions) => (regions.declared.to_vec(), regions.term.to_vec()),
        Err(_) => {
            let (declared, term) = words.split_at(random.below(words.len() + 1));
            (declared.to_vec(), term.to_vec())
        }
    }
}

/// A few telling words, or any.
fn rubbish(random: &mut Random) -> Vec<u32> {
    let telling = random.chance(70);
    (0..random.below(12)).map(|_| if telling { telling_word(random) } else { random.word() }).collect()
}

/// The length of a buffer for a file of so many bytes.
pub fn any_room(random: &mut Random, bytes: usize) -> usize {
    let (any, longer) = (random.below(bytes + 20), bytes + random.below(400));
    random.weighted(&[(6, 0), (20, bytes - 1), (30, bytes), (12, bytes + 1), (12, any), (20, longer)])
}

/// A sum of four ones for each call of a function that calls itself so many times: its run nests four levels deeper with each
/// call, and comes back.
pub fn counted_up(calls: usize) -> String {
    let sum = "(add 1 (add 1 (add 1 (add 1 (app v1 (subtract v0 1))))))";
    format!("N (app (fix (fn (N to N) (fn N (if0 v0 0 {sum})))) {calls})")
}

/// A list that is doubled so many times and then asked whether it is empty: its run grows large, and comes back.
pub fn doubled(times: usize) -> String {
    let (mut list, mut kind) = ("(cons 1 (cons 2 (nil N)))".to_string(), "{N}".to_string());
    for _ in 0..times {
        list = format!("(app (fn {kind} (cons v0 (cons v0 (nil {kind})))) {list})");
        kind = format!("{{{kind}}}");
    }
    format!("N (null? {list})")
}

/// Recipes whose runs nest deeper than a file may, or grow larger: some come back to a value, some never do.
pub fn outgrowing() -> Vec<Vec<u8>> {
    let endless = ["N (fix (fn N (add 1 v0)))", "{N} (fix (fn {N} (cons 1 v0)))", "{N} (fix (fn {N} (tl v0)))"];
    let texts = endless.map(str::to_string).into_iter().chain([20, 58, 61, 64, 90].map(counted_up));
    texts.chain([8, 9, 10, 11].map(doubled)).map(|text| file_of_text(&text)).collect()
}
