//! The reader of nodes compared: the engine's answer, and that of its way without the short one, at every place of many words
//! and past their end, with the model's.

mod counts;
pub mod edges;
mod reader;

use super::Plan;
use crate::make::nodes::any_node_words;
use crate::progress::Progress;
use crate::random::Random;

pub use counts::NodeCounts;
pub use reader::NodeReaders;

/// Compares at the edges and at every place of random words. A difference comes back shrunk and shown.
pub fn compare_node(engine: NodeReaders, plan: Plan) -> Result<NodeCounts, String> {
    let mut counts = NodeCounts::default();
    if plan.start == 0 {
        fixed(engine, &mut counts)?;
    }
    plan.each_file(|index| random_words(engine, plan.seed, index, &mut counts))?;
    Ok(counts)
}

/// Random words; now and then cut off at any place, what is cut off still standing behind them.
fn random_words(engine: NodeReaders, seed: u64, index: u64, counts: &mut NodeCounts) -> Result<(), String> {
    let mut random = Random::new(seed, index);
    let words = any_node_words(&mut random);
    let length = if random.chance(30) { random.below(words.len() + 1) } else { words.len() };
    engine.ask_everywhere(&words[..length], counts)
}

/// What is the same in every comparison: words short enough to be asked about at every place, and deep ones at some.
fn fixed(engine: NodeReaders, counts: &mut NodeCounts) -> Result<(), String> {
    let short = [vec![vec![]], edges::every_kind(), edges::every_few(), edges::flat()].concat();
    let mut progress = Progress::new("words at the edges", short.len() as u64);
    for (done, words) in short.iter().enumerate() {
        engine.ask_everywhere(words, counts)?;
        progress.done(done as u64);
    }
    let deep = edges::deep();
    let mut progress = Progress::new("deep words", deep.len() as u64);
    for (done, words) in deep.iter().enumerate() {
        engine.ask_here_and_there(words, counts)?;
        progress.done(done as u64);
    }
    Ok(())
}
