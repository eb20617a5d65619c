//! How a term of a run is shown, and which rules the run has used.

use super::carried::{Due, Next};
use super::cut::{line, names, view};
use super::input::Input;
use super::run::{count, term};
use super::walk::Kept;
use model::node::Node;
use model::rules::{Rule, RuleCounts};
use model::text::{pretty, Style};
use std::cmp::Reverse;

/// How terms are shown: by the names of a text, whole or cut to what changes. A value is shown whole.
pub struct Manner<'a> {
    pub input: &'a Input,
    pub whole: bool,
}

impl Manner<'_> {
    /// A term of the run: how many words it has, the node whose turn it is, and what comes next.
    pub fn shown(&self, kept: &Kept) -> Result<String, String> {
        let (names, marked) = (names(self.input, &kept.origins), kept.due.map(|due| due.place));
        let text = match marked {
            Some(_) if !self.whole => {
                view(&line(&kept.words, &names, marked)?, self.input.width.saturating_sub(4)).join("\n    ")
            }
            _ => {
                let style = Style { width: self.input.width.saturating_sub(2), names: &names, marked, ..Style::PLAIN };
                pretty(Node::Ml(&term(&kept.words)?), &style).replace('\n', "\n  ")
            }
        };
        let next = kept.due.map_or(String::new(), |due| format!("  -> {} ({})\n", next(&due), due.class.name()));
        let size = count(kept.words.len() as u32, "word");
        Ok(format!("step {}, {size}\n  {text}\n{next}", kept.steps))
    }
}

/// What comes next, in words.
pub fn next(due: &Due) -> String {
    match due.next {
        Next::Rule(rule) => rule.name().into(),
        Next::Raised(code) => format!("wrong {code} ends the run"),
    }
}

/// How often each rule was used, the most frequent first.
pub fn rules(counts: &RuleCounts) -> String {
    let mut rows: Vec<(u64, Rule)> = Rule::ALL.into_iter().map(|rule| (counts.of(rule), rule)).collect();
    rows.retain(|row| row.0 > 0);
    rows.sort_by_key(|row| Reverse(row.0));
    let Some((most, _)) = rows.first() else { return String::new() };
    let digits = most.to_string().len();
    let lines = rows.iter().map(|(number, rule)| format!("  {number:>digits$} {}\n", rule.name()));
    lines.fold("rules:\n".into(), |text, line| text + &line)
}
