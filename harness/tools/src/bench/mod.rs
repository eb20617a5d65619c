//! Benchmarks: works measured side by side in one run.

mod checks;
mod growth;
pub mod nodes;
pub mod prices;
mod recipes;
mod runs;
pub mod saves;
pub mod table;
mod timing;
mod works;

/// A part of the benchmarks: its name, what its figures are, and the lines of its tables.
pub struct Part {
    pub name: &'static str,
    pub about: &'static str,
    pub tables: fn() -> Vec<String>,
}

/// The parts, in the order in which they are printed.
pub const PARTS: [Part; 6] = [
    Part { name: "check", about: CHECKS, tables: checks::tables },
    Part { name: "run", about: STEPS, tables: runs::tables },
    Part { name: "growth", about: STEPS, tables: growth::tables },
    Part { name: "price", about: PRICES, tables: prices::tables },
    Part { name: "save", about: SAVES, tables: saves::tables },
    Part { name: "node", about: NODES, tables: nodes::tables },
];

/// What holds of all figures, printed before them.
pub const ABOUT: &str = "\
The works of a row are measured in turn, again and again in this run, and the least time of each counts.
Figures of different runs are not to be compared: compare the works of one run.
";

/// What the columns of an old archive are, printed after that where one is linked.
pub const ABOUT_OLD: &str = "\
old: the same function of the archive of the landing before, which RECIPE_OLD_ARCHIVE named when this was built.
new/old is the engine's time over that one's: under 1 says that it takes less time than it took.
";

/// What the figures of files checked are.
const CHECKS: &str = "\
check: files checked. tree: the model's reading and checking. engine: recipe_check. tree/engine over 1 says that the
engine takes less time.
";

/// How a step is measured, printed before the tables of steps.
const STEPS: &str = "\
run and growth: steps. tree: the model's reducer on trees. engine: recipe_run. copy: the words of each next term
copied, one copy_from_slice a step, no more.
A step's time is a difference: the time of the run under its limit less the time of the same run, of the same file in
the same buffers, under the limit before the first step measured, divided by the steps. So the reading and the check of
the file, the first words put into the buffer and the clearing of both buffers at the end are not in it. Two buffers
are lent of just the words needed (lent: the largest term's or the file's, whichever is more, rounded up to 64); they
are not cleared beforehand but hold what the last run left. words: of a term, on average. tree/engine over 1 says that
the engine takes less time, engine/copy over 1 that it takes more.
";

/// What the figures of cans priced are.
const PRICES: &str = "\
price: cans of nine items. run: recipe_run. price: recipe_price of the same file. card: recipe_card of the same, in a
third buffer of 410 bytes. All are whole calls, with reading, check and clearing, in two buffers of just the words
needed (lent). price/run over 1 says that the pricing takes longer, card/price over 1 that the card does.
";

/// What the figures of files saved are.
const SAVES: &str = "\
save: the words of accepted files saved. check: recipe_check of the file. save: recipe_save of its words, which writes
the same file, in a buffer of 16,384 bytes. Both are whole calls. save/check over 1 says that the save takes longer.
";

/// What the figures of nodes asked for are.
const NODES: &str = "\
node: a term's words, asked for the whole node at one place after another: at those whose whole node is one word, and at
every place. before: recipe_node_walked, which starts a walk at each. after: recipe_node, which gives a word without
parts back straight from the constant table. before/after over 1 says that it takes less time than it took.
";
