//! The batch card: what a priced can costs, laid out as lines of text in a lent buffer. Written from document 02's request
//! U7.

use crate::check::Refusal;
use crate::price::{price, Charges, Priced, Prices};
use crate::run::Run;

/// "lines of exactly 40 columns".
const COLUMNS: usize = 40;

/// The columns, counted from 1, in which a pump's number, its pulses and a charge or the total end.
const NUMBER_ENDS: usize = 2;
const PULSES_END: usize = 16;
const CHARGE_ENDS: usize = 32;

/// A sheet of lines that are blank where nothing is set.
struct Sheet {
    lines: Vec<[char; COLUMNS]>,
}

impl Sheet {
    fn blank(lines: usize) -> Sheet {
        Sheet { lines: vec![[' '; COLUMNS]; lines] }
    }

    /// Sets a letter in a line, counted from 0, and a column, counted from 1. Nothing is set twice.
    fn set(&mut self, line: usize, column: usize, letter: char) {
        let place = &mut self.lines[line][column - 1];
        assert_eq!(*place, ' ', "two letters in column {column}");
        *place = letter;
    }

    /// A number "right-aligned to" a column: its ones stand there, its tens in the column before, and so on.
    fn number(&mut self, line: usize, ends: usize, number: u64) {
        let (mut column, mut rest) = (ends, number);
        loop {
            let digit = char::from_digit((rest % 10) as u32, 10).expect("a digit");
            self.set(line, column, digit);
            rest /= 10;
            if rest == 0 {
                return;
            }
            column -= 1;
        }
    }

    /// The lines one after another, each with its line feed.
    fn bytes(&self) -> Vec<u8> {
        let lines = self.lines.iter().map(|line| line.iter().collect::<String>() + "\n");
        lines.collect::<String>().into_bytes()
    }
}

/// The card: "A pump's line has its number right-aligned to column 2, pulses to column 16, charge to column 32, blanks
/// elsewhere. The last line has TOTAL in columns 1 to 5 and the total right-aligned to column 32. An empty list has the last
/// line alone."
pub fn laid_out(charges: &Charges) -> Vec<u8> {
    let last = charges.items.len();
    let mut sheet = Sheet::blank(last + 1);
    for (line, &pulses) in charges.items.iter().enumerate() {
        sheet.number(line, NUMBER_ENDS, line as u64 + 1);
        sheet.number(line, PULSES_END, pulses.into());
        sheet.number(line, CHARGE_ENDS, charges.each[line]);
    }
    for (column, letter) in (1..).zip("TOTAL".chars()) {
        sheet.set(last, column, letter);
    }
    sheet.number(last, CHARGE_ENDS, charges.total);
    sheet.bytes()
}

/// A pricing, the length of the card, 0 where none is written, and every byte of the buffer lent for it.
pub struct Carded {
    pub priced: Priced,
    pub bytes: usize,
    pub card: Vec<u8>,
}

/// Prices a can, and lays its card out in a buffer of `room` bytes, whatever it held. "The bytes past the card are zero. An
/// end without a charge writes no card." 14, a "buffer shorter than the card", comes "after 10", so at a value alone; all that
/// was lent is zero then.
pub fn card(prices: &Prices, file: &[u8], limit: u32, lengths: (usize, usize), room: usize) -> Carded {
    let priced = price(prices, file, limit, lengths.0, lengths.1);
    let mut card = priced.charges.as_ref().map_or(Vec::new(), laid_out);
    if card.len() > room {
        let run = Run::new(Err(Refusal::new(14, 0)), None, lengths, priced.run.rules);
        return Carded { priced: Priced { run, charges: None }, bytes: 0, card: vec![0; room] };
    }
    let bytes = card.len();
    card.resize(room, 0);
    Carded { priced, bytes, card }
}
