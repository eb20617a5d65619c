//! Recipes of type {N}: a can's pulses for pumps 1, 2 and so on, made in many ways.

use super::forms::Maker;
use super::owners::any_owner;
use super::text::file_of_text;
use crate::random::Random;
use model::build::{list, n, recipe_file};
use model::tree::MOST;

/// Pulses that tell: none, one, around a thousand, at the edges of the bands, the largest.
pub const PULSES: [u32; 15] =
    [0, 1, 2, 999, 1_000, 1_001, 9_998, 9_999, 10_000, 10_001, 99_999, 100_000, 100_001, 16_777_214, 16_777_215];

/// The pulses of a can: mostly for as many pumps as there are or fewer, now and then for more.
fn pulses(random: &mut Random) -> Vec<u32> {
    let (few, more) = (random.below(10), 10 + random.below(3));
    let count = random.weighted(&[(70, few), (18, 9), (12, more)]);
    (0..count).map(|_| any_pulses(random)).collect()
}

/// Telling pulses, or any.
fn any_pulses(random: &mut Random) -> u32 {
    let (telling, any) = (random.pick(&PULSES), random.word() >> random.weighted(&[(1, 8), (1, 12), (1, 18)]));
    random.weighted(&[(70, telling), (30, any)])
}

/// A recipe of type {N} that most often comes to a value.
pub fn can_file(random: &mut Random) -> Vec<u8> {
    if random.chance(20) {
        let budget = 2 + random.below(40);
        let declared = list(n());
        let term = Maker::new(random, budget).ml(&declared);
        return recipe_file(&declared, &term);
    }
    file_of_text(&format!("{{N}} {}", any_list(random)))
}

/// A list in ML or from Scheme, or one that a function counts down; some steps around it.
fn any_list(random: &mut Random) -> String {
    let numbers = pulses(random);
    let text = match random.below(10) {
        0..4 => can_text(&items(random, &numbers, ml_item)),
        4..7 => format!("(ms {{N}} {})", scheme_list(random, &numbers)),
        7 => format!("(ms {{N}} (sm {{N}} {}))", can_text(&items(random, &numbers, ml_item))),
        8 => counted_down(numbers.len()),
        _ => can_text(&numbers.iter().map(u32::to_string).collect::<Vec<_>>()),
    };
    match random.below(12) {
        0 => format!("(tl (cons 5 {text}))"),
        1 => format!("(app (fn {{N}} v0) {text})"),
        2 => format!("(if0 1 (nil N) {text})"),
        _ => text,
    }
}

/// The ML list of items that are texts.
pub fn can_text(items: &[String]) -> String {
    items.iter().rev().fold("(nil N)".to_string(), |rest, item| format!("(cons {item} {rest})"))
}

/// A list of so many numbers that a function counts down.
pub fn counted_down(from: usize) -> String {
    let body = "(fn N (if0 v0 (nil N) (cons v0 (app v1 (subtract v0 1)))))";
    format!("(app (fix (fn (N to {{N}}) {body})) {from})")
}

/// A Scheme list of the numbers; now and then it does not end as a list.
fn scheme_list(random: &mut Random, numbers: &[u32]) -> String {
    let end = if random.chance(4) { "7" } else { "nil" };
    let items = items(random, numbers, scheme_item);
    items.iter().rev().fold(end.to_string(), |rest, item| format!("(cons {item} {rest})"))
}

/// Each number as a term.
fn items(random: &mut Random, numbers: &[u32], item: fn(&mut Random, u32) -> String) -> Vec<String> {
    numbers.iter().map(|&number| item(random, number)).collect()
}

/// A number as an ML term that comes to it; seldom one that ends the run otherwise.
fn ml_item(random: &mut Random, number: u32) -> String {
    match random.below(100) {
        0..50 => number.to_string(),
        50..60 => sum_to(random, number),
        60..66 => difference_to(random, number),
        66..69 => format!("(app (fn N v0) {number})"),
        69..72 => resealed(random, number),
        72..78 => format!("(app (ms (N to N) (fn v0)) {number})"),
        78..88 => format!("(ms N {})", scheme_item(random, number)),
        88..92 => format!("(hd (cons {number} (nil N)))"),
        92..97 => format!("(if0 0 {number} (wrong 7 N))"),
        97 => "(hd (nil N))".into(),
        98 => "(wrong 300 N)".into(),
        _ => "(fix (fn N v0))".into(),
    }
}

/// A number that was sealed for one owner, opened, and sealed for another before it is opened for good.
fn resealed(random: &mut Random, number: u32) -> String {
    let [one, other] = [any_owner(random), any_owner(random)];
    format!("(ms N (sm L{other} (app (fn L{other} v0) (ms L{other} (sm L{one} (ms L{one} {number}))))))")
}

/// The same in Scheme.
fn scheme_item(random: &mut Random, number: u32) -> String {
    match random.below(50) {
        0..25 => number.to_string(),
        25..31 => sum_to(random, number),
        31..35 => difference_to(random, number),
        35..39 => format!("(app (fn v0) {number})"),
        39..43 => format!("(sm N {number})"),
        43..47 => format!("(hd (cons {number} nil))"),
        47..49 => format!("(if0 0 {number} nil)"),
        _ => "nil".into(),
    }
}

/// A sum that comes to the number.
fn sum_to(random: &mut Random, number: u32) -> String {
    let part = random.below(number as usize + 1) as u32;
    format!("(add {part} {})", number - part)
}

/// A difference that comes to the number.
fn difference_to(random: &mut Random, number: u32) -> String {
    let less = random.below((MOST - number) as usize + 1) as u32;
    format!("(subtract {} {less})", number + less)
}
