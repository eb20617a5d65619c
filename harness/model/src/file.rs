//! A recipe file: bytes, words and header, with refusals 1 and 2.

use crate::check::Refusal;

const LEAST_BYTES: usize = 24;
pub const MOST_BYTES: usize = 16_384;

/// The words of the declared type and of the term.
pub struct Regions<'a> {
    pub declared: &'a [u32],
    pub term: &'a [u32],
}

/// The file's little-endian words, or refusal 1.
pub fn words_of(bytes: &[u8]) -> Result<Vec<u32>, Refusal> {
    if !bytes.len().is_multiple_of(4) || bytes.len() < LEAST_BYTES || bytes.len() > MOST_BYTES {
        return Err(Refusal::new(1, 0));
    }
    Ok(words_in(bytes))
}

/// The little-endian words of any bytes, more than a file may have too; a last one that is not whole is left out.
pub fn words_in(bytes: &[u8]) -> Vec<u32> {
    bytes.chunks_exact(4).map(|b| u32::from_le_bytes([b[0], b[1], b[2], b[3]])).collect()
}

/// The two regions by the header, or refusal 2. Sums are over whole numbers: they never wrap.
pub fn regions(words: &[u32]) -> Result<Regions<'_>, Refusal> {
    let [types, type_offset, terms, term_offset] = [0, 1, 2, 3].map(|i| u64::from(words[i]));
    let in_order = types >= 1
        && terms >= 1
        && type_offset == 4
        && term_offset == 4 + types
        && term_offset + terms == words.len() as u64;
    if !in_order {
        return Err(Refusal::new(2, 0));
    }
    let (declared, term) = words[4..].split_at(types as usize);
    Ok(Regions { declared, term })
}

/// The file with the given words of type and term, its header in order.
pub fn file(declared: &[u32], term: &[u32]) -> Vec<u8> {
    let (types, terms) = (declared.len() as u32, term.len() as u32);
    let header = [types, 4, terms, 4 + types];
    bytes_of(&[&header, declared, term].concat())
}

pub fn bytes_of(words: &[u32]) -> Vec<u8> {
    words.iter().flat_map(|word| word.to_le_bytes()).collect()
}
