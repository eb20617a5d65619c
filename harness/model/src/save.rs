//! Save and go on: the words of a declared type and of a term, written as a recipe file into a lent buffer. Written from
//! document 02's request U3.

use crate::build::recipe_file;
use crate::check::{judged, read_words, Refusal};
use crate::file::MOST_BYTES;
use crate::read::DEEPEST;

/// What a save answers, the length of the file or a refusal, and every byte of the buffer after it.
pub struct Saved {
    pub result: Result<usize, Refusal>,
    pub buffer: Vec<u8>,
}

/// Saves the words handed in as a file in a buffer of `room` bytes, whatever it held. The bytes behind the file are zero;
/// "a refused save leaves that buffer all zero".
pub fn save(declared: &[u32], term: &[u32], room: usize) -> Saved {
    let written = written(declared, term, room);
    let result = written.as_ref().map(Vec::len).map_err(|refusal| *refusal);
    let mut buffer = written.unwrap_or_default();
    buffer.resize(room, 0);
    Saved { result, buffer }
}

/// The file, or the first refusal in the order: 12 "before all others", from the lengths alone; 3 and 4 in one walk; 5; 6; 7;
/// 13 "after all others". Condition 2 never arises: an empty type or term is the word that runs out first.
fn written(declared: &[u32], term: &[u32], room: usize) -> Result<Vec<u8>, Refusal> {
    if file_bytes(declared.len(), term.len()) > MOST_BYTES as u128 {
        return Err(Refusal::new(12, 0));
    }
    let recipe = judged(read_words(declared, term, DEEPEST)?)?;
    let file = recipe_file(&recipe.declared, &recipe.term);
    match file.len() > room {
        true => Err(Refusal::new(13, 0)),
        false => Ok(file),
    }
}

/// The bytes of a file with so many words of type and term, over whole numbers: a header of four words, and 4 bytes a word.
fn file_bytes(types: usize, terms: usize) -> u128 {
    4 * (4 + types as u128 + terms as u128)
}
