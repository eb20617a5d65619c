//! Planted errors: the model in the engine's place, with one thing wrong. They show that the fuzzer finds what there is to find.

use crate::engine::{Engine, Read};
use model::earlier;
use model::text::parse_recipe;
use tools::engine::{Card, Check, Node, Price, Run, Save};
use tools::stand_in;

/// The errors by their names.
const ERRORS: [(&str, fn(&mut Engine)); 10] = [
    ("none", |_| {}),
    ("check-owners", |engine| engine.check = CHECK_OWNERS),
    ("run-earlier", |engine| engine.run = RUN_EARLIER),
    ("run-spent", |engine| engine.run = RUN_SPENT),
    ("run-rubbish", |engine| engine.run = RUN_RUBBISH),
    ("price-band", |engine| engine.price = PRICE_BAND),
    ("card-short", |engine| engine.card = CARD_SHORT),
    ("save-order", |engine| engine.save = SAVE_ORDER),
    ("node-owner", |engine| engine.node = NODE_OWNER),
    ("text-digits", |engine| engine.read = TEXT_DIGITS),
];

/// The model with the error of that name.
pub fn engine(name: &str) -> Result<Engine, String> {
    let names = ERRORS.map(|(known, _)| known).join(", ");
    let (_, plant) =
        ERRORS.iter().find(|(known, _)| *known == name).ok_or(format!("an error to plant is one of {names}"))?;
    let mut engine = Engine {
        check: stand_in::check,
        run: stand_in::run,
        price: stand_in::price,
        card: stand_in::card,
        save: stand_in::save,
        node: stand_in::node,
        walked: stand_in::node,
        read: parse_recipe,
    };
    plant(&mut engine);
    Ok(engine)
}

/// Types are equal if their words are but for the owners.
const CHECK_OWNERS: Check = |file| match stand_in::check(file) {
    answer if answer % 256 == 7 => stand_in::check(&model::owners::without_owners(file)),
    answer => answer,
};

/// Scheme's if0 takes its third part at a test that is no number, as before U4.
const RUN_EARLIER: Run = |file, limit, first, second| stand_in::run_by(earlier::before_u4, file, limit, first, second);

/// A value that is reached with the last step is spent.
const RUN_SPENT: Run = |file, limit, first, second| {
    let mut answer = stand_in::run(file, limit, first, second);
    if (answer.refusal, answer.end) == (0, 0) && limit > 2 && answer.steps == limit {
        answer.end = 1;
    }
    answer
};

/// The last word of the second buffer stays as it was after an error 3.
const RUN_RUBBISH: Run = |file, limit, first, second| {
    let kept = second.last().copied();
    let answer = stand_in::run(file, limit, first, second);
    if let (Some(last), Some(kept), (2, 3)) = (second.last_mut(), kept, (answer.end, answer.code)) {
        *last = kept;
    }
    answer
};

/// At exactly 100,000 pulses pump 3 is charged by the band below.
const PRICE_BAND: Price = |prices, file, limit, first, second| {
    let mut answer = stand_in::price(prices, file, limit, first, second);
    if answer.run.refusal == 0 && answer.run.end == 0 && first.get(5) == Some(&(17 + 256 * 100_000)) {
        let below = model::price::charge(100_000, prices.cents[2][1]);
        answer.total = answer.total - answer.charge[2] + below;
        answer.charge[2] = below;
    }
    answer
};

/// A buffer that is one byte shorter than the card is refused by 13.
const CARD_SHORT: Card = |prices, file, limit, first, second, card| {
    let mut answer = stand_in::card(prices, file, limit, first, second, card);
    if answer.priced.run.refusal == 14 && card.len() % 41 == 40 {
        answer.priced.run.refusal = 13;
    }
    answer
};

/// A buffer that is too short comes before a term whose type is not the declared one.
const SAVE_ORDER: Save = |declared, term, out| {
    let mut answer = stand_in::save(declared, term, out);
    if answer.refusal == 7 && out.len() < 16 + 4 * (declared.len() + term.len()) {
        (answer.refusal, answer.place) = (13, 0);
    }
    answer
};

/// Owner 256 is an owner for the word that is asked about.
const NODE_OWNER: Node = |words, at| match words.get(at) {
    Some(65_538) => 1,
    _ => stand_in::node(words, at),
};

/// A variable's number over 9,999 is read as the next.
const TEXT_DIGITS: Read = |text| {
    let mut parsed = parse_recipe(text)?;
    for word in parsed.term.iter_mut().filter(|word| **word % 256 == 16 && **word / 256 > 9_999) {
        *word = word.wrapping_add(256);
    }
    Ok(parsed)
};
