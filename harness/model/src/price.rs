//! The price of a can: the pulses of a value of type {N}, charged by the shop's price table. Written from document 02's
//! request U2.

use crate::check::{check, Refusal};
use crate::rules::RuleCounts;
use crate::run::{capacity, fitting, reduce, End, Ended, Run};
use crate::tree::{Ml, Type};
use std::rc::Rc;

/// "pumps 1 to 9", and the "three bands" of each.
pub const PUMPS: usize = 9;
pub const BANDS: usize = 3;

/// The largest price that is no refusal.
pub const MOST_PRICE: u32 = 1_000_000;

/// "The shop's price table has nine rows of three bands, in cents per 1,000 pulses."
pub type Prices = [[u32; BANDS]; PUMPS];

/// What a can costs, in cents.
#[derive(Clone, Debug, PartialEq, Eq)]
pub struct Charges {
    /// The pulses that the value gives, for pump 1 first; as many as it has items.
    pub items: Vec<u32>,
    /// Of each pump, 0 where it has no item.
    pub each: [u64; PUMPS],
    pub total: u64,
}

/// A run, and the charges if it ended as a value.
pub struct Priced {
    pub run: Run,
    pub charges: Option<Charges>,
}

/// Prices a can: "a run whose result gains, at a value, each charge and the total".
pub fn price(prices: &Prices, bytes: &[u8], limit: u32, first_len: usize, second_len: usize) -> Priced {
    let mut rules = RuleCounts::default();
    let (result, left, charges) = match ended(prices, bytes, limit, capacity(first_len, second_len), &mut rules) {
        Err(refusal) => (Err(refusal), None, None),
        Ok((ended, left, charges)) => (Ok(ended), left, charges),
    };
    Priced { run: Run::new(result, left, (first_len, second_len), rules), charges }
}

/// A run's end, the term that it leaves, and at a value the charges.
type Outcome = (Ended, Option<Rc<Ml>>, Option<Charges>);

/// The refusals in their order, and between them the run: 11 "before the file is read"; 1 to 7; 9 "between 7 and 8"; 8;
/// 10 "at the value".
fn ended(
    prices: &Prices,
    bytes: &[u8],
    limit: u32,
    capacity: usize,
    rules: &mut RuleCounts,
) -> Result<Outcome, Refusal> {
    if prices.iter().flatten().any(|&price| price > MOST_PRICE) {
        return Err(Refusal::new(11, 0));
    }
    let recipe = check(bytes)?;
    if !is_numbers(&recipe.declared) {
        return Err(Refusal::new(9, 0));
    }
    let term = fitting(recipe.term, capacity)?;
    let (ended, left) = reduce(term, limit, capacity, rules);
    let charges = match &left {
        Some(value) if ended.end == End::Value => Some(charged(prices, value)?),
        _ => None,
    };
    Ok((ended, left, charges))
}

/// Whether a type is {N}.
fn is_numbers(declared: &Type) -> bool {
    matches!(declared, Type::List(element) if **element == Type::Number)
}

/// The charges of a value, or refusal 10 for "more than nine items".
fn charged(prices: &Prices, value: &Ml) -> Result<Charges, Refusal> {
    let items = items(value).expect("a value of type {N} is a list of numbers");
    if items.len() > PUMPS {
        return Err(Refusal::new(10, 0));
    }
    let mut each = [0; PUMPS];
    for (pump, &pulses) in items.iter().enumerate() {
        each[pump] = charge(pulses, prices[pump][band(pulses)]);
    }
    Ok(Charges { items, each, total: each.iter().sum() })
}

/// The numbers of a list, from first to last, if it is one of numbers.
pub fn items(list: &Ml) -> Option<Vec<u32>> {
    let (mut rest, mut found) = (list, Vec::new());
    while let Ml::Cons(head, tail) = rest {
        let Ml::Number(pulses) = **head else { return None };
        found.push(pulses);
        rest = tail;
    }
    matches!(rest, Ml::Nil(_)).then_some(found)
}

/// "Band 0 is under 10,000 pulses, band 1 under 100,000, band 2 the rest."
pub fn band(pulses: u32) -> usize {
    match pulses {
        0..10_000 => 0,
        10_000..100_000 => 1,
        _ => 2,
    }
}

/// "A pump's charge is pulses × price ÷ 1,000, rounded up to a cent." No two numbers of 32 bits make it too large.
pub fn charge(pulses: u32, price: u32) -> u64 {
    (u64::from(pulses) * u64::from(price)).div_ceil(1_000)
}
