//! What a comparison of cards has reached: ends and refusals with each kind of card buffer, the order of the refusals, numbers
//! of items by the buffer's length, and numbers by their digits.

use super::faults::ORDER;
use super::laws::LINE;
use super::CardCase;
use crate::compare::counts::{add, order_rows, Counts};
use model::price::PUMPS;
use model::rules::Rule;
use model::{Carded, Charges, End, Refusal};

/// Lengths of a card's buffer beside the card's own.
const ROOMS: [&str; 7] =
    ["just as long", "a byte short", "a line short", "of no bytes", "a byte longer", "longer by a line", "far longer"];

/// Lengths of a card's buffer where there is no card.
const NO_CARD: [&str; 3] = ["no bytes", "1 to 409 bytes", "410 bytes or more"];

/// The most digits of pulses, of a charge and of a total.
const PULSES: usize = 8;
const CHARGE: usize = 11;
const TOTAL: usize = 12;

/// All that is counted of cards.
#[derive(Default)]
pub struct CardCounts {
    pub cards: u64,
    /// The ends, the steps to them, and the refusals.
    runs: Counts,
    /// By the number of items and `ROOMS`.
    items: [[u64; ROOMS.len()]; PUMPS + 1],
    /// Spent, error and full, and refusals by their numbers, by `NO_CARD`.
    ends: [[u64; NO_CARD.len()]; 4],
    refused: [[u64; NO_CARD.len()]; 15],
    /// Refusals 14 of runs that had made steps.
    refused_after_steps: u64,
    /// Numbers on a card of so many digits, at each pump.
    pulses: [[u64; PUMPS]; PULSES],
    charges: [[u64; PUMPS]; CHARGE],
    totals: [u64; TOTAL],
    /// The least and the largest numbers of pulses of so many digits; the least charges and totals.
    edges: [[u64; 2]; PULSES],
    powers: [[u64; 2]; TOTAL],
    /// 0 pulses; a charge of 0 for none and for some; a total of 0 of an empty list and of items; 16,777,215,000 cents;
    /// nine of them.
    telling: [u64; TELLING.len()],
    /// Refusals given while another fits, by both numbers.
    before: [[u64; 15]; 15],
}

const TELLING: [&str; 7] = [
    "0 pulses",
    "charge 0 of 0 pulses",
    "charge 0 of more pulses",
    "total 0 of an empty list",
    "total 0 of items",
    "the largest charge",
    "the largest total",
];

/// The most that a pump is charged, in cents.
const MOST: u64 = 16_777_215_000;

impl CardCounts {
    /// Counts a card, by what the model answers.
    pub fn count(&mut self, case: &CardCase, carded: &Carded) {
        self.cards += 1;
        let room = case.room;
        match &carded.priced.run.result {
            Err(refusal) => self.refused(refusal, case, carded),
            Ok(ended) => {
                self.runs.ended(ended);
                add(&mut self.ends[ended.end as usize], lent_without_a_card(room));
            }
        }
        if let Some(charges) = &carded.priced.charges {
            self.laid_out(charges, room);
        }
    }

    /// Counts a refusal; of 14 also the card that was due.
    fn refused(&mut self, refusal: &Refusal, case: &CardCase, carded: &Carded) {
        self.runs.refused(refusal);
        self.runs.file(&case.priced.lent.file, Some(refusal));
        add(&mut self.refused[refusal.number as usize], lent_without_a_card(case.room));
        if refusal.number != 14 {
            return;
        }
        let steps: u64 = Rule::ALL.iter().map(|rule| carded.priced.run.rules.of(*rule)).sum();
        self.refused_after_steps += u64::from(steps > 0);
        if let Some(charges) = case.priced.by_model().charges {
            add(&mut self.items[charges.items.len()], rooms(&charges, case.room));
        }
    }

    /// Counts what stands on a card.
    fn laid_out(&mut self, charges: &Charges, room: usize) {
        add(&mut self.items[charges.items.len()], rooms(charges, room));
        for (pump, (&pulses, &charge)) in charges.items.iter().zip(&charges.each).enumerate() {
            let width = digits(pulses.into());
            self.pulses[width - 1][pump] += 1;
            self.charges[digits(charge) - 1][pump] += 1;
            let largest = (10_u64.pow(width as u32) - 1).min(16_777_215);
            add(&mut self.edges[width - 1], [is_power(pulses.into()), u64::from(pulses) == largest]);
            self.powers[digits(charge) - 1][0] += u64::from(is_power(charge));
        }
        let Charges { items, each, total } = charges;
        self.totals[digits(*total) - 1] += 1;
        self.powers[digits(*total) - 1][1] += u64::from(is_power(*total));
        let free = |some: bool| items.iter().zip(each).any(|(&pulses, &charge)| charge == 0 && (pulses > 0) == some);
        let kinds = [
            items.contains(&0),
            free(false),
            free(true),
            items.is_empty(),
            *total == 0 && !items.is_empty(),
            each.contains(&MOST),
            *total == 9 * MOST,
        ];
        add(&mut self.telling, kinds);
    }

    /// One refusal was given although another fits too.
    pub fn given_before(&mut self, given: u32, other: u32) {
        self.before[given as usize][other as usize] += 1;
    }

    /// The table of the comparison.
    pub fn rows(&self) -> Vec<(String, u64)> {
        let after = ("refusal 14 after steps".to_string(), self.refused_after_steps);
        let telling = TELLING.iter().zip(self.telling).map(|(name, count)| (name.to_string(), count));
        let rows = self.runs.of_cards().into_iter().chain([after]).chain(self.room_rows());
        let rows = rows.chain(self.digit_rows()).chain(telling);
        rows.chain(order_rows(&ORDER, &self.before)).collect()
    }

    /// Card buffers: for each number of items by their length, the least of the numbers from 0 to 9 counting; without a card by
    /// the end, and by the refusal, the least of 1 to 11.
    fn room_rows(&self) -> Vec<(String, u64)> {
        let least = |kind: usize| self.items.iter().map(|kinds| kinds[kind]).min().unwrap_or(0);
        let items = ROOMS.iter().enumerate();
        let items = items.map(|(kind, room)| (format!("each of 0 to 9 items, the buffer {room}"), least(kind)));
        let ends = [End::Spent, End::Error, End::Full].into_iter().flat_map(|end| {
            let named = NO_CARD.iter().zip(self.ends[end as usize]);
            named.map(move |(room, count)| (format!("end: {}, a card buffer of {room}", end.name()), count))
        });
        let least = |kind: usize| self.refused[1..=11].iter().map(|kinds| kinds[kind]).min().unwrap_or(0);
        let refused = NO_CARD.iter().enumerate();
        let refused =
            refused.map(|(kind, room)| (format!("each of refusals 1 to 11, a card buffer of {room}"), least(kind)));
        items.chain(ends).chain(refused).collect()
    }

    /// Numbers by their digits; of pulses and charges the least count over the nine pumps.
    fn digit_rows(&self) -> Vec<(String, u64)> {
        let least = |pumps: &[u64; PUMPS]| pumps.iter().copied().min().unwrap_or(0);
        let at_each = |what: &str, counts: &[[u64; PUMPS]]| -> Vec<(String, u64)> {
            let named = (1..).zip(counts);
            named.map(|(width, pumps)| (format!("{what} of {} at each pump", wide(width)), least(pumps))).collect()
        };
        let totals = (1..).zip(self.totals).map(|(width, count)| (format!("total of {}", wide(width)), count));
        let edges = (1..).zip(self.edges).flat_map(|(width, counts)| {
            ["least", "largest"]
                .into_iter()
                .zip(counts)
                .map(move |(which, count)| (format!("the {which} number of pulses over 0 of {}", wide(width)), count))
        });
        let powers = (1..).zip(self.powers).flat_map(|(width, counts)| {
            let named = ["charge", "total"].into_iter().zip(counts).filter(move |(what, _)| width <= most(what));
            named.map(move |(what, count)| (format!("the least {what} over 0 of {}", wide(width)), count))
        });
        let both = [at_each("pulses", &self.pulses), at_each("charge", &self.charges)].concat();
        both.into_iter().chain(totals).chain(edges).chain(powers).collect()
    }
}

/// The most digits of a charge or of a total.
fn most(what: &str) -> usize {
    if what == "charge" {
        CHARGE
    } else {
        TOTAL
    }
}

/// The kinds of a buffer for the card of these charges, by `ROOMS`.
fn rooms(charges: &Charges, room: usize) -> [bool; ROOMS.len()] {
    let due = LINE * (charges.items.len() + 1);
    [
        room == due,
        room + 1 == due,
        room + LINE == due,
        room == 0,
        room == due + 1,
        room == due + LINE,
        room >= due + 500,
    ]
}

/// The kinds of a buffer where there is no card, by `NO_CARD`.
fn lent_without_a_card(room: usize) -> [bool; NO_CARD.len()] {
    [room == 0, (1..410).contains(&room), room >= 410]
}

/// A number of digits in words.
fn wide(digits: usize) -> String {
    format!("{digits} digit{}", if digits == 1 { "" } else { "s" })
}

/// How many digits a number has.
fn digits(number: u64) -> usize {
    number.to_string().len()
}

/// Whether a number is 1, 10, 100 and so on.
fn is_power(number: u64) -> bool {
    number > 0 && number == 10_u64.pow(digits(number) as u32 - 1)
}
