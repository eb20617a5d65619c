//! Words to ask the reader of nodes about: nodes of every sort one after another, what runs leave, damaged words, and any words.

use super::damage::{damage, telling_word};
use super::owners::any_owner;
use super::plan::{mistaken_file, well_typed_file};
use crate::random::Random;
use model::file::{regions, words_in, words_of};
use model::kinds::{KINDS, LUMP};

/// Any of these words.
pub fn any_node_words(random: &mut Random) -> Vec<u32> {
    match random.below(20) {
        0 => (0..random.below(60)).map(|_| random.word()).collect(),
        1 => (0..random.below(60)).map(|_| telling_word(random)).collect(),
        2 => (0..random.below(60)).map(|_| due_word(random)).collect(),
        3 => left(random),
        4..12 => nodes(random),
        _ => damaged(random),
    }
}

/// A word of a tree kind with an operand that is due.
fn due_word(random: &mut Random) -> u32 {
    let row = &KINDS[random.below(KINDS.len())];
    let any = if row.number == LUMP { any_owner(random) } else { row.least };
    row.number + 256 * random.pick(&[row.least, row.most, any])
}

/// The declared types and terms of some recipes, one after another; now and then with their headers.
fn nodes(random: &mut Random) -> Vec<u32> {
    let mut found = Vec::new();
    for _ in 0..1 + random.below(3) {
        let words = words_in(&well_typed_file(random));
        found.extend_from_slice(if random.chance(20) { &words } else { &words[4..] });
    }
    found
}

/// The words of a file that is damaged; where it is no file any more, a word of it is another.
fn damaged(random: &mut Random) -> Vec<u32> {
    let file = well_typed_file(random);
    let spoilt = damage(random, file.clone());
    if let Ok(words) = words_of(&spoilt) {
        return words;
    }
    let mut words = words_in(&file);
    let at = random.below(words.len());
    words[at] = telling_word(random);
    words
}

/// Words that a run has at most, and steps that it makes.
const CAPACITY: usize = 2_000;
const STEPS: usize = 40;

/// What the run of a recipe leaves after some steps, with the words behind it in the buffer.
fn left(random: &mut Random) -> Vec<u32> {
    let file = mistaken_file(random);
    let ran = model::run(&file, random.below(STEPS) as u32, CAPACITY, CAPACITY);
    let declared = words_of(&file).ok().and_then(|words| regions(&words).ok().map(|regions| regions.declared.to_vec()));
    let left = ran.result.map_or(0, |ended| ended.left as usize);
    [declared.unwrap_or_default(), ran.first[..(left + 4).min(CAPACITY)].to_vec()].concat()
}
