//! The engine's two readers of nodes beside the model's.

use super::NodeCounts;
use crate::compare::report::list;
use crate::engine::Node;
use crate::shrink::shrink_words;
use model::nodes::{node_at, size_at};

/// The engine's reader of nodes, and the same without the short way for words without parts.
#[derive(Clone, Copy)]
pub struct NodeReaders {
    pub node: Node,
    pub walked: Node,
}

/// Places right behind the last word that are asked about.
const BEHIND: usize = 3;

/// Places that are past the end of any words.
pub const FAR: [usize; 4] = [1 << 32, 1 << 63, usize::MAX - 1, usize::MAX];

/// Places around the ends, the middle and level 256 of deep words that are asked about.
const AROUND: usize = 3;

/// Words of which every place is tried while a difference is shrunk.
const FEW: usize = 64;

impl NodeReaders {
    /// Asks at every place of the words, right behind them, and far away.
    pub fn ask_everywhere(self, words: &[u32], counts: &mut NodeCounts) -> Result<(), String> {
        (0..words.len() + BEHIND).chain(FAR).try_for_each(|at| self.ask(words, at, counts))
    }

    /// Asks at some places of words that are many and deep.
    pub fn ask_here_and_there(self, words: &[u32], counts: &mut NodeCounts) -> Result<(), String> {
        some_places(words).into_iter().try_for_each(|at| self.ask(words, at, counts))
    }

    /// Asks all three at a place. A difference comes back shrunk and shown.
    fn ask(self, words: &[u32], at: usize, counts: &mut NodeCounts) -> Result<(), String> {
        let answer = node_at(words, at);
        counts.asked(words, at, &answer);
        let size = answer.map_or(0, |whole| whole.words);
        match (self.node)(words, at) == size && (self.walked)(words, at) == size {
            true => Ok(()),
            false => Err(self.difference(words, at)),
        }
    }

    /// Whether one of the two differs from the model.
    fn differs(self, words: &[u32], at: usize) -> bool {
        let size = size_at(words, at);
        (self.node)(words, at) != size || (self.walked)(words, at) != size
    }

    /// A place where one differs, if there is one among those tried, of which `at` is one.
    fn differing(self, words: &[u32], at: usize) -> Option<usize> {
        let tried =
            if words.len() <= FEW { (0..words.len() + BEHIND).chain(FAR).collect() } else { some_places(words) };
        tried.into_iter().chain([at]).find(|&at| self.differs(words, at))
    }

    /// Fewer words in which one still differs, shown with the place.
    fn difference(self, words: &[u32], at: usize) -> String {
        let behind = words.get(at..).filter(|behind| self.differing(behind, 0).is_some());
        let start = behind.unwrap_or(words).to_vec();
        if self.differing(&start, at).is_none() {
            return self.shown(words, at) + "only with the words that stand behind these in memory\n";
        }
        let small = shrink_words(start, &mut |words| self.differing(words, at).is_some());
        let place = self.differing(&small, at).unwrap_or(at);
        self.shown(&small, place)
    }

    /// The words, the place, and the three answers.
    fn shown(self, words: &[u32], at: usize) -> String {
        let (size, node, walked) = (size_at(words, at), (self.node)(words, at), (self.walked)(words, at));
        let lines = [
            format!("words:              {}", list(words)),
            format!("place:              {at}"),
            format!("model:              {size}"),
            format!("recipe_node:        {node}"),
            format!("recipe_node_walked: {walked}"),
        ];
        lines.map(|line| line.trim_end().to_string() + "\n").concat()
    }
}

/// Places of many words: the first ones, the last ones and those behind them, some in between, around the middle, around level
/// 256 if each level has one word or two, and far away.
fn some_places(words: &[u32]) -> Vec<usize> {
    let length = words.len();
    let middles = [0, 256, 512, length / 2, length.saturating_sub(512), length.saturating_sub(256), length];
    let around = middles.into_iter().flat_map(|middle| middle.saturating_sub(AROUND)..middle + AROUND);
    let between = (0..length).step_by(1 + length / 8);
    let mut places: Vec<usize> = around.chain(between).filter(|&at| at < length + BEHIND).chain(FAR).collect();
    places.sort_unstable();
    places.dedup();
    places
}
