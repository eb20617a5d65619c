//! Damage to a file: bits, words, length, header. Some of it leaves the header in order, so that later refusals are met.

use super::owners::change_owner;
use crate::random::Random;
use model::file::{bytes_of, file, regions, words_of, MOST_BYTES};
use model::kinds::{Kind, KINDS};

const OPERANDS: [u32; 12] = [0, 0, 0, 1, 2, 3, 4, 255, 256, 65_535, 65_536, 16_777_215];
const EXTREMES: [u32; 16] =
    [0, 1, 2, 3, 4, 5, 6, 7, 255, 4_091, 4_096, 0x7fff_ffff, 0x8000_0000, u32::MAX - 4, u32::MAX - 3, u32::MAX];

/// A word of some kind, due or not, with a telling operand.
pub fn telling_word(random: &mut Random) -> u32 {
    let kind = if random.chance(85) { KINDS[random.below(KINDS.len())].number } else { random.below(256) as u32 };
    kind + 256 * random.pick(&OPERANDS)
}

pub fn damage(random: &mut Random, bytes: Vec<u8>) -> Vec<u8> {
    match random.below(12) {
        0 => bits(random, bytes),
        1 => length(random, bytes),
        2 => header(random, bytes),
        3 => one_word(random, bytes),
        4 | 5 => inside(random, bytes, other_owner),
        _ => inside(random, bytes, change),
    }
}

fn bits(random: &mut Random, mut bytes: Vec<u8>) -> Vec<u8> {
    if !bytes.is_empty() {
        let at = random.below(bytes.len());
        bytes[at] ^= 1 << random.below(8);
    }
    bytes
}

fn length(random: &mut Random, mut bytes: Vec<u8>) -> Vec<u8> {
    let words = 4 * random.below(bytes.len() / 4 + 1);
    let any = random.below(bytes.len() + 8);
    let near = MOST_BYTES - 8 + random.below(16);
    let length = random.weighted(&[(5, words), (4, any), (1, near), (2, bytes.len() + 4)]);
    bytes.resize(length, 0);
    bytes
}

fn header(random: &mut Random, mut bytes: Vec<u8>) -> Vec<u8> {
    for _ in 0..1 + random.below(2) {
        let (at, word) = (4 * random.below(4), random.pick(&EXTREMES));
        if let Some(place) = bytes.get_mut(at..at + 4) {
            place.copy_from_slice(&word.to_le_bytes());
        }
    }
    bytes
}

fn one_word(random: &mut Random, mut bytes: Vec<u8>) -> Vec<u8> {
    let (at, word) = (4 * random.below(bytes.len() / 4 + 1), telling_word(random));
    if let Some(place) = bytes.get_mut(at..at + 4) {
        place.copy_from_slice(&word.to_le_bytes());
    }
    bytes
}

/// Changes the words of the type or of the term and keeps the header in order.
fn inside(random: &mut Random, bytes: Vec<u8>, change: fn(&mut Random, &mut Vec<u32>)) -> Vec<u8> {
    let Ok(words) = words_of(&bytes) else { return bytes };
    let Ok(regions) = regions(&words) else { return bytes_of(&words) };
    let (mut declared, mut term) = (regions.declared.to_vec(), regions.term.to_vec());
    let region = if random.chance(20) { &mut declared } else { &mut term };
    change(random, region);
    file(&declared, &term)
}

/// Gives a lump another owner, or where there is none, changes any word.
fn other_owner(random: &mut Random, words: &mut Vec<u32>) {
    if !change_owner(random, words) {
        change(random, words);
    }
}

fn change(random: &mut Random, words: &mut Vec<u32>) {
    let at = random.below(words.len());
    match random.below(8) {
        0 => words.insert(at, telling_word(random)),
        1 if words.len() > 1 => drop(words.remove(at)),
        2 => words.truncate(at.max(1)),
        3 => words.push(telling_word(random)),
        4 => {
            let other = random.below(words.len());
            words.swap(at, other);
        }
        5 => words[at] = words[at] % 256 + 256 * random.pick(&OPERANDS),
        _ => words[at] = like(random, words[at]),
    }
}

/// A word of another kind of the same sort with the same parts, where there is one: the words stay in order.
fn like(random: &mut Random, word: u32) -> u32 {
    let Some(row) = model::kinds::kind(word % 256) else { return telling_word(random) };
    let same = |other: &&Kind| other.sort == row.sort && other.parts == row.parts;
    let rows: Vec<&Kind> = KINDS.iter().filter(same).collect();
    let other = random.pick(&rows);
    other.number + 256 * (word / 256).clamp(other.least, other.most)
}
