//! Words at the edges of the reader of nodes: every kind with telling operands and parts, every few words of an alphabet, the
//! deepest words and long flat ones.

use crate::make::edges::balanced;
use crate::make::file_of_text;
use crate::make::owners::lump;
use model::file::words_of;
use model::kinds::{kind, Sort, KINDS};
use model::run::MOST_WORDS;

/// Around the ends of every kind's range.
const OPERANDS: [u32; 10] = [0, 1, 2, 3, 4, 255, 256, 65_535, 65_536, 16_777_215];

/// A word of no kind.
const NO_KIND: u32 = 99;

/// L of some owner, of the last, and of the one after it.
const SOME: u32 = lump(7);
const LAST: u32 = lump(255);
const OVER: u32 = lump(256);

const SORTS: [Sort; 3] = [Sort::Type, Sort::Ml, Sort::Scheme];

/// A node of a sort, and one of several words.
fn node_of(sort: Sort) -> [&'static [u32]; 2] {
    match sort {
        Sort::Type => [&[1], &[4, 3, LAST, 2]],
        Sort::Ml => [&[17], &[21, 24, SOME, 16]],
        Sort::Scheme => [&[33], &[40, 299, 39, 300]],
    }
}

/// Words of a sort with an operand past its range: N with 1, L with the owner after the last, wrongs with 0.
fn past(sort: Sort) -> &'static [&'static [u32]] {
    match sort {
        Sort::Type => &[&[257], &[OVER]],
        Sort::Ml => &[&[29, 1]],
        Sort::Scheme => &[&[44]],
    }
}

/// Every kind from 0 to 255 with telling operands: alone, before nodes of each sort, and with parts in order and not.
pub fn every_kind() -> Vec<Vec<u32>> {
    let mut found = Vec::new();
    for number in 0..=255 {
        let behinds = behinds(number);
        let words = OPERANDS.map(|operand| number + 256 * operand);
        found.extend(words.iter().flat_map(|word| behinds.iter().map(|behind| [&[*word], &behind[..]].concat())));
    }
    found
}

/// What is put behind a word of a kind.
fn behinds(number: u32) -> Vec<Vec<u32>> {
    let alike = SORTS.map(|sort| node_of(sort)[0].repeat(3));
    let mut found = [vec![vec![]], alike.to_vec()].concat();
    if let Some(row) = kind(number).filter(|row| !row.parts.is_empty()) {
        for size in 0..2 {
            let whole: Vec<&[u32]> = row.parts.iter().map(|sort| node_of(*sort)[size]).collect();
            found.extend((0..=whole.concat().len()).map(|length| whole.concat()[..length].to_vec()));
            found.extend((0..whole.len()).flat_map(|part| spoilt(&whole, row.parts[part], part)));
        }
    }
    found
}

/// Parts of which one is of another sort, has an operand past its range, or is no kind.
fn spoilt(whole: &[&'static [u32]], sort: Sort, part: usize) -> Vec<Vec<u32>> {
    let others =
        SORTS.into_iter().filter(|other| *other != sort).flat_map(|other| [node_of(other)[0], node_of(other)[1]]);
    let others = others.chain(past(sort).iter().copied()).chain([&[NO_KIND][..]]);
    others.map(|other| [&whole[..part], &[other], &whole[part + 1..]].concat().concat()).collect()
}

/// Words of every tree kind, with the least and the largest operand and with those past them; and words of no kind.
fn alphabet() -> Vec<u32> {
    let past = [(1, 1), (2, 256), (18, 1), (24, 1), (29, 0), (29, 65_536), (39, 1), (43, 4), (44, 0), (44, 65_536)];
    let no_kinds = [0, 5, 15, 31, 46, 63, 65, 81, 128, 255];
    let due = KINDS.iter().flat_map(|row| [(row.number, row.least), (row.number, row.most)]).chain([(2, 1)]);
    let mut found: Vec<u32> = due.chain(past).map(|(kind, operand)| kind + 256 * operand).chain(no_kinds).collect();
    found.dedup();
    found
}

/// Every one, two and three words of the alphabet.
pub fn every_few() -> Vec<Vec<u32>> {
    let alphabet = alphabet();
    let longer = |shorter: &[Vec<u32>]| -> Vec<Vec<u32>> {
        shorter.iter().flat_map(|words| alphabet.iter().map(|word| [&words[..], &[*word]].concat())).collect()
    };
    let one = longer(&[vec![]]);
    let two = longer(&one);
    let three = longer(&two);
    [one, two, three].concat()
}

/// Long words that nest little: each word without parts again and again, a tree of sums, and a curve of 4,000 words.
pub fn flat() -> Vec<Vec<u32>> {
    let row = "(cons 1 ".repeat(32) + "nil" + &")".repeat(32);
    let rows = format!("(cons {row} ").repeat(60) + "nil" + &")".repeat(60);
    let curve = words_of(&file_of_text(&format!("{{{{N}}}} (ms {{{{N}}}} {rows})"))).expect("a file");
    let leaves = [1, 2, SOME, LAST, 16, 17, 32, 33, 39, 44 + 256 * 300].map(|word| vec![word; 4_096]);
    leaves.into_iter().chain([balanced(21, 17, 2_048), curve]).collect()
}

/// Levels that are nested as deep as 16,384 words allow, and what is in the innermost.
const LEVELS: [(&[u32], &[u32]); 14] = [
    (&[3], &[1]),
    (&[4, 1], &[LAST]),
    (&[20], &[17]),
    (&[18, 1], &[16]),
    (&[30, 1, 45, 1], &[17]),
    (&[45, 3, 1, 30, SOME], &[39]),
    (&[34], &[32]),
    (&[28], &[29 + 256 * 9, 1]),
    (&[25, 17], &[24, 1]),
    (&[40, 33], &[39]),
    (&[23, 17, 17], &[17]),
    (&[43 + 256 * 3], &[44 + 256 * 9]),
    (&[19, 18, 1, 16], &[17]),
    (&[38, 39, 33], &[33]),
];

/// The deepest words: nested in the last part and in the first; whole, cut off, and with the last word of another sort, of no
/// kind or with an operand past its range.
pub fn deep() -> Vec<Vec<u32>> {
    let last = LEVELS.map(|(level, inner)| {
        let levels = (MOST_WORDS - inner.len()) / level.len();
        [level.repeat(levels), inner.to_vec()].concat()
    });
    let first = [(4, 1), (25, 17), (35, 33)]
        .map(|(join, leaf)| [vec![join; MOST_WORDS / 2 - 1], vec![leaf; MOST_WORDS / 2]].concat());
    last.into_iter().chain(first).flat_map(|words| [spoilt_at_the_end(&words), vec![words]].concat()).collect()
}

/// The words without the last one, and with another in its place.
fn spoilt_at_the_end(words: &[u32]) -> Vec<Vec<u32>> {
    let shorter = &words[..words.len() - 1];
    let other =
        SORTS.iter().flat_map(|sort| past(*sort).iter().chain([&node_of(*sort)[0]]).copied().collect::<Vec<_>>());
    let others = other.chain([&[NO_KIND][..]]).map(|other| [shorter, other].concat());
    [shorter.to_vec()].into_iter().chain(others).collect()
}
