//! Terms as flat words: where a node ends, and whose turn it is. No tree is built, and no stack is
//! needed, however deep a term nests.

use model::kinds::{ml, scheme, KINDS, LUMP};

/// How many parts each kind has, by its number; from the table of kinds.
const PARTS: [u8; 64] = {
    let mut parts = [0; 64];
    let mut at = 0;
    while at < KINDS.len() {
        parts[KINDS[at].number as usize] = KINDS[at].parts.len() as u8;
        at += 1;
    }
    parts
};

/// The kind of the word at a place.
pub fn kind_at(words: &[u32], place: usize) -> u32 {
    words[place] % 256
}

/// How many parts a word's node has.
pub fn parts_of(word: u32) -> u8 {
    PARTS[(word % 64) as usize]
}

/// The place behind the whole node that starts at a place.
pub fn behind(words: &[u32], place: usize) -> usize {
    let (mut at, mut due) = (place, 1);
    while due > 0 {
        due = due + usize::from(parts_of(words[at])) - 1;
        at += 1;
    }
    at
}

/// Whether a kind is a boundary's.
pub fn is_boundary(kind: u32) -> bool {
    matches!(kind, ml::MS | scheme::SM)
}

/// A node that evaluation goes through, and how many of its parts it still has to take, the one it is in among them.
pub struct Frame {
    place: usize,
    left: u8,
}

/// The first word of the node whose turn it is, or none for a value: the first in the order of evaluation that is no value
/// while the parts that evaluation takes are. `frames` is lent.
pub fn turn(words: &[u32], frames: &mut Vec<Frame>) -> Option<usize> {
    frames.clear();
    let mut at = 0;
    loop {
        let kind = kind_at(words, at);
        match evaluated(kind) {
            0 if is_value(words, at) => at = behind(words, at),
            0 => return Some(at),
            left => {
                frames.push(Frame { place: at, left });
                at = if is_boundary(kind) { behind(words, at + 1) } else { at + 1 };
                continue;
            }
        }
        loop {
            let frame = frames.last_mut()?;
            frame.left -= 1;
            if frame.left > 0 {
                break;
            }
            let place = frame.place;
            if !is_value(words, place) {
                return Some(place);
            }
            at = behind(words, place);
            frames.pop();
        }
    }
}

/// How many parts evaluation takes: the first ones, of a boundary the one behind its type.
fn evaluated(kind: u32) -> u8 {
    match kind {
        ml::APPLICATION | ml::ADD | ml::SUBTRACT | ml::CONS => 2,
        scheme::APPLICATION | scheme::ADD | scheme::SUBTRACT | scheme::CONS => 2,
        ml::FIX | ml::IF0 | ml::HD | ml::TL | ml::NULL | ml::MS => 1,
        scheme::IF0 | scheme::HD | scheme::TL | scheme::TEST | scheme::SM => 1,
        _ => 0,
    }
}

/// Whether the node at a place is a value, the parts that evaluation takes being values.
fn is_value(words: &[u32], place: usize) -> bool {
    match kind_at(words, place) {
        ml::LAMBDA | ml::NUMBER | ml::NIL | ml::CONS => true,
        scheme::LAMBDA | scheme::NUMBER | scheme::NIL | scheme::CONS => true,
        ml::MS => kind_at(words, place + 1) == LUMP,
        _ => false,
    }
}
