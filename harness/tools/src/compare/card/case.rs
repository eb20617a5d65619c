//! One card of the engine beside one of the model.

use super::laws::{self, LINE};
use super::{CardCounts, CardingEngine};
use crate::compare::price::PriceCase;
use crate::compare::report::list;
use crate::compare::seen::{lend, Lent, Seen};
use crate::engine::RecipeCard;
use crate::random::Random;
use crate::stand_in::told_card;
use model::Carded;
use std::fmt;

/// A card: what its pricing is lent, and the bytes of the buffer lent for it.
#[derive(Clone)]
pub struct CardCase {
    pub priced: PriceCase,
    pub room: usize,
}

/// What a card's call answers and leaves in all three buffers, and whether the bytes around the third are untouched.
#[derive(PartialEq, Eq)]
pub struct Kept {
    pub words: Seen<RecipeCard>,
    pub card: Vec<u8>,
    pub within: bool,
}

impl CardCase {
    /// The same in a card buffer of another length.
    pub fn in_room(&self, room: usize) -> CardCase {
        CardCase { room, ..self.clone() }
    }

    /// Makes the card by both. A difference, or a law that the engine breaks, comes back shrunk and shown.
    pub fn compare(&self, engine: CardingEngine, counts: &mut CardCounts) -> Result<Carded, String> {
        let model = self.by_model();
        counts.count(self, &model);
        let kept = self.by_engine(engine);
        let differs = kept != kept_by(&model);
        if !differs && self.law_broken(&kept, engine).is_none() {
            return Ok(model);
        }
        let fault = if differs { CardCase::differs } else { CardCase::breaks_a_law };
        Err(self.shrunk(&|case| fault(case, engine)).shown(engine))
    }

    /// What the model answers.
    pub fn by_model(&self) -> Carded {
        let lent = &self.priced.lent;
        model::card(&self.priced.prices.cents, &lent.file, lent.limit, (lent.first, lent.second), self.room)
    }

    /// What the engine answers and leaves in buffers full of rubbish.
    pub fn by_engine(&self, engine: CardingEngine) -> Kept {
        let PriceCase { prices, lent } = &self.priced;
        let mut random = Random::new(self.room as u64, lent.file.len() as u64);
        let mut card = Lent::new(self.room, || random.word() as u8 | 1);
        let words =
            lend(lent, |first, second| (engine.card)(prices, &lent.file, lent.limit, first, second, card.part()));
        Kept { words, within: card.is_within(), card: card.part().to_vec() }
    }

    /// The law that the engine's card breaks, if it breaks one.
    fn law_broken(&self, kept: &Kept, engine: CardingEngine) -> Option<String> {
        laws::broken(kept, &self.priced.by_engine(engine.price))
    }

    /// Whether the two differ; a run that may take very long is not tried.
    pub fn differs(&self, engine: CardingEngine) -> bool {
        self.priced.lent.is_short() && kept_by(&self.by_model()) != self.by_engine(engine)
    }

    /// Whether the engine breaks a law; a run that may take very long is not tried.
    pub fn breaks_a_law(&self, engine: CardingEngine) -> bool {
        self.priced.lent.is_short() && self.law_broken(&self.by_engine(engine), engine).is_some()
    }

    /// A smaller case that has the property, too. With an item less the card is shorter, and its buffer with it, or not.
    fn shrunk(&self, holds: &dyn Fn(&CardCase) -> bool) -> CardCase {
        let mut room = self.room;
        let priced = self.priced.shrunk(&mut |priced| {
            let case = CardCase { priced: priced.clone(), room };
            let found = [room, room.saturating_sub(LINE)].into_iter().find(|&room| holds(&case.in_room(room)));
            found.map(|found| room = found).is_some()
        });
        let case = CardCase { priced, room };
        let shorter = (0..=10).flat_map(|lines| [LINE * lines, LINE * lines + 1, LINE * lines + LINE - 1]);
        let found = shorter.filter(|&shorter| shorter < room).find(|&room| holds(&case.in_room(room)));
        case.in_room(found.unwrap_or(room))
    }

    /// The case as it was lent.
    pub fn show(&self) -> String {
        format!("{}card buffer of {} bytes\n", self.priced.show(), self.room)
    }

    /// The case, what both sides answer and leave, and the law that the engine breaks, if it breaks one.
    fn shown(&self, engine: CardingEngine) -> String {
        let (model, kept) = (kept_by(&self.by_model()), self.by_engine(engine));
        let law = self.law_broken(&kept, engine).map_or(String::new(), |law| format!("a law: {law}\n"));
        format!("{}model:\n{model}engine:\n{kept}{law}", self.show())
    }
}

/// What the model answered and left.
pub fn kept_by(carded: &Carded) -> Kept {
    let run = &carded.priced.run;
    let (first, second) = (run.first.clone(), run.second.clone());
    Kept {
        words: Seen { answer: told_card(carded), first, second, within: true },
        card: carded.card.clone(),
        within: true,
    }
}

impl fmt::Display for Kept {
    fn fmt(&self, f: &mut fmt::Formatter<'_>) -> fmt::Result {
        write!(f, "{}{}", self.words, readable(&self.card))?;
        match self.within {
            true => Ok(()),
            false => writeln!(f, "  bytes around the card were written"),
        }
    }
}

/// The lines of a card in quotation marks, what is no letter of them as its number, and the zeros behind it counted.
fn readable(card: &[u8]) -> String {
    let end = card.iter().rposition(|&byte| byte != 0).map_or(0, |last| last + 1);
    let (text, zeros) = card.split_at(end);
    let lines = text.split_inclusive(|&byte| byte == b'\n');
    let mut shown: String = lines.map(|line| format!("  card:   \"{}\"\n", line.escape_ascii())).collect();
    if !zeros.is_empty() || text.is_empty() {
        shown += &format!("  card:   {}\n", if zeros.is_empty() { "no bytes".into() } else { list(zeros) });
    }
    shown
}

impl fmt::Display for RecipeCard {
    fn fmt(&self, f: &mut fmt::Formatter<'_>) -> fmt::Result {
        write!(f, "{}\n  card of {} bytes", self.priced, self.bytes)
    }
}
