//! What document 02 says of a card, looked at in the engine's own answers without the model: its lines read back column by
//! column, and the engine's pricing of the same beside it.

use super::Kept;
use crate::compare::seen::Seen;
use crate::engine::RecipePriced;

/// The bytes of a line: 40 columns and a line feed.
pub const LINE: usize = 41;

/// The law that a card breaks, if it breaks one; the engine's pricing of the same, in buffers as long, comes second.
pub fn broken(kept: &Kept, priced: &Seen<RecipePriced>) -> Option<String> {
    let (told, due) = (&kept.words.answer, &priced.answer);
    let value = due.run.refusal == 0 && due.run.end == 0;
    let items = items(&priced.first);
    let length = LINE * (items.len() + 1);
    let cleared = [&kept.words.first, &kept.words.second].iter().all(|words| words.iter().all(|&word| word == 0));
    if value && kept.card.len() < length {
        let refused = told.priced.run.refusal == 14 && is_refused(&told.priced) && cleared;
        return unless(refused && is_none(kept), "a buffer shorter than the card is 14, all zero");
    }
    if told.priced != *due || (&kept.words.first, &kept.words.second) != (&priced.first, &priced.second) {
        return Some("but for 14 a card's pricing is that of recipe_price".into());
    }
    if !value {
        return unless(is_none(kept), "where there is no charge there is no card");
    }
    if told.bytes as usize != length || kept.card[length..].iter().any(|&byte| byte != 0) {
        return Some(format!("a card of {} items has {length} bytes, and zeros behind them", items.len()));
    }
    read_back(&kept.card[..length], &items, due)
}

fn unless(holds: bool, law: &str) -> Option<String> {
    (!holds).then(|| law.to_string())
}

/// Whether no card is told and none is written.
fn is_none(kept: &Kept) -> bool {
    kept.words.answer.bytes == 0 && kept.card.iter().all(|&byte| byte == 0)
}

/// Whether all numbers but the refusal's are 0.
fn is_refused(priced: &RecipePriced) -> bool {
    let mut rest = *priced;
    rest.run.refusal = 0;
    rest == RecipePriced::default()
}

/// The pulses of a list of numbers that stands first in the words.
fn items(words: &[u32]) -> Vec<u32> {
    let cells = words.chunks_exact(2).take_while(|cell| cell[0] == 25 && cell[1] % 256 == 17);
    cells.map(|cell| cell[1] / 256).collect()
}

/// The first line of a card that does not read back as the pricing says.
fn read_back(card: &[u8], items: &[u32], priced: &RecipePriced) -> Option<String> {
    let (lines, total) = card.split_at(LINE * items.len());
    for (index, line) in lines.chunks(LINE).enumerate() {
        let due = [(2, index as u64 + 1), (16, items[index].into()), (32, priced.charge[index])];
        if !reads(line, "", &due) {
            return Some(format!("line {} does not have {due:?}, each ending in its column, and blanks", index + 1));
        }
    }
    let due = [(32, priced.total)];
    unless(reads(total, "TOTAL", &due), "the last line does not have TOTAL, the total ending in column 32, and blanks")
}

/// Whether a line has 40 columns and a line feed, starts with the word, has each number end in its column, without a zero
/// before it, and is blank elsewhere.
fn reads(line: &[u8], word: &str, numbers: &[(usize, u64)]) -> bool {
    let [columns @ .., b'\n'] = line else { return false };
    let found: Option<usize> = numbers.iter().map(|&(ends, number)| digits(columns, ends, number)).sum();
    let blanks = columns.iter().filter(|&&letter| letter == b' ').count();
    let word_stands = columns.starts_with(word.as_bytes());
    columns.len() == 40 && word_stands && found.is_some_and(|digits| digits + word.len() + blanks == 40)
}

/// How many digits end in a column, counted from 1, if they are the number's and no zero stands before it.
fn digits(columns: &[u8], ends: usize, number: u64) -> Option<usize> {
    let before = columns.get(..ends)?;
    let count = before.iter().rev().take_while(|letter| letter.is_ascii_digit()).count();
    let digits = &before[before.len() - count..];
    let read = digits.iter().try_fold(0_u64, |read, digit| read.checked_mul(10)?.checked_add(u64::from(digit - b'0')));
    let plain = count == 1 || digits.first().is_some_and(|&digit| digit != b'0');
    let ended = columns.get(ends).is_none_or(|next| !next.is_ascii_digit());
    (read == Some(number) && count > 0 && plain && ended).then_some(count)
}
