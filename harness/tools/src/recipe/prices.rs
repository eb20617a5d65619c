//! A shop's price table as text: nine rows of three numbers, one row for each pump, one number for each band.

use super::reading::{fill, open, utf8};
use crate::engine::RecipePrices;
use model::price::{BANDS, MOST_PRICE, PUMPS};
use std::fmt::Display;

/// A word of the text, with its line and its column, both counted from 1.
#[derive(Clone, Copy)]
struct Word<'a> {
    text: &'a str,
    line: usize,
    column: usize,
}

/// A price table, and what refusal 11 is about: the first price that is too large and where it stands.
pub struct Table {
    pub prices: RecipePrices,
    pub over: Option<String>,
}

/// The bytes of a price file at most.
const MOST_BYTES: usize = 1 << 20;

/// Reads the table from the file that is named.
pub fn read_prices(name: &str) -> Result<Table, String> {
    let mut bytes = Vec::new();
    fill(&mut open(name)?, name, &mut bytes, MOST_BYTES + 1)?;
    if bytes.len() > MOST_BYTES {
        return Err(format!("{name} has more than 1,048,576 bytes; a price file is nine rows of three numbers"));
    }
    let table = text(&bytes).and_then(table).map_err(|fault| format!("{name}, {fault}"))?;
    Ok(Table { over: table.over.map(|over| format!("{name}, {over}")), ..table })
}

/// A sentence with the place that it is about.
fn at(word: Word<'_>, sentence: impl Display) -> String {
    format!("line {}, column {}: {sentence}", word.line, word.column)
}

/// The bytes as text, or where they are none.
fn text(bytes: &[u8]) -> Result<&str, String> {
    utf8(bytes, false).map_err(|(position, _)| {
        let here = Word { text: "", line: position.line, column: position.column };
        at(here, "a byte that is no text; a price file is plain text in UTF-8")
    })
}

/// The table of a text, or the first thing that is wrong with it.
fn table(text: &str) -> Result<Table, String> {
    let mut table = Table { prices: RecipePrices::default(), over: None };
    let mut pump = 0;
    for (index, line) in text.lines().enumerate() {
        let words = line_words(line, index + 1);
        let Some(first) = words.first() else { continue };
        if pump == PUMPS {
            return Err(at(*first, "a tenth row; the table has nine, one for each of pumps 1 to 9"));
        }
        row(&words, pump, &mut table)?;
        pump += 1;
    }
    let end = Word { text: "", line: text.lines().count() + 1, column: 1 };
    match pump {
        PUMPS => Ok(table),
        _ => Err(at(end, format!("the table ends after {pump} of its nine rows; pump {} has none", pump + 1))),
    }
}

/// Takes a pump's row of three prices, the pump being counted from 0.
fn row(words: &[Word<'_>], pump: usize, table: &mut Table) -> Result<(), String> {
    const THREE: &str = "a row has three, for bands 0, 1 and 2";
    for (band, word) in words.iter().enumerate() {
        if band == BANDS {
            return Err(at(*word, format!("a fourth price for pump {}; {THREE}", pump + 1)));
        }
        let price = price(word.text).map_err(|fault| at(*word, fault))?;
        table.prices.cents[pump][band] = price;
        if price > MOST_PRICE && table.over.is_none() {
            table.over = Some(at(*word, format!("{price}, of pump {} in band {band}", pump + 1)));
        }
    }
    match words {
        [.., last] if words.len() < BANDS => {
            let behind = Word { column: last.column + last.text.chars().count(), ..*last };
            Err(at(behind, format!("pump {} has no price for band {}; {THREE}", pump + 1, words.len())))
        }
        _ => Ok(()),
    }
}

/// The words of a line up to its comment, blanks and tabs being between them.
fn line_words(line: &str, number: usize) -> Vec<Word<'_>> {
    let code = line.split('#').next().unwrap_or("");
    let mut found = Vec::new();
    let mut column = 1;
    for text in code.split(|letter: char| letter.is_ascii_whitespace()) {
        if !text.is_empty() {
            found.push(Word { text, line: number, column });
        }
        column += text.chars().count() + 1;
    }
    found
}

/// The number that a text is, or what to write in its place.
fn price(text: &str) -> Result<u32, String> {
    let shown = text.escape_debug();
    let is_number = |text: &str| !text.is_empty() && text.bytes().all(|byte| byte.is_ascii_digit());
    let plain = text.replace(',', "");
    if is_number(text) {
        let most = format!("{shown} is too large; a price is at most {MOST_PRICE} cents for 1,000 pulses");
        return text.parse().map_err(|_| most);
    }
    Err(if is_number(&plain) {
        format!("{shown} has a comma; write {plain}, and only blanks between prices")
    } else if text.starts_with(['-', '+']) {
        format!("{shown} has a sign; a price is 0 to {MOST_PRICE} cents for 1,000 pulses")
    } else if text.split('.').all(is_number) {
        format!("{shown} is no whole number; a price is in whole cents for 1,000 pulses")
    } else {
        format!("{shown} is no number; a price is digits alone, cents for 1,000 pulses")
    })
}
