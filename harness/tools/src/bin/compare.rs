//! Compares the engine with the model: `compare check`, `compare run`, `compare price`, `compare card`, `compare save`,
//! `compare node`, `compare list`, `compare stack`.
#![forbid(unsafe_code)]

use model::on_large_stack;
use model::run::MOST_WORDS;
use std::path::Path;
use std::process::ExitCode;
use tools::args::Args;
use tools::compare::figures::{figures, find_all, try_all, try_figure, HEADER};
use tools::compare::{
    compare_asked_stack, compare_card, compare_carded_stack, compare_check, compare_checked_stack, compare_list,
    compare_node, compare_price, compare_priced_stack, compare_run, compare_save, compare_saved_stack, compare_stack,
    missing, table, CardingEngine, Counts, NodeReaders, Plan, Room, SavingEngine, FEWEST_WORDS,
};
use tools::engine::{
    linked_card, linked_check, linked_node, linked_node_walked, linked_price, linked_run, linked_save,
};
use tools::output::say;

const HELP: &str = "\
Compares the engine with a checker, a reducer, a pricing, a card, a save and a reader of nodes built apart from it.

usage: compare check [--files N] [--seed S] [--start I] [--all-reached]
       compare run   [--files N] [--seed S] [--start I] [--all-reached]
       compare price [--files N] [--seed S] [--start I] [--all-reached]
       compare card  [--files N] [--seed S] [--start I] [--all-reached]
       compare save  [--files N] [--seed S] [--start I] [--all-reached]
       compare node  [--files N] [--seed S] [--start I] [--all-reached]
       compare list  [--files N] [--seed S] [--start I] [--all-reached]
       compare stack [--find]
       compare stack --kib K [--of NAME] [--words W]

check        every term of up to 3 words, files at the edges, owners in range and over it wherever a type may stand, every two
             owners that are compared, every way to have no type at many depths and beside others, types that differ in any
             word, and N random files (200000), with every other a recipe with parts of other types: number and place
run          every small recipe, every kind of value that if0 tests, every place of an owner, lumps opened and sealed for
             other owners, edges of files and of what is lent, and N random files (100000): result and every word of both
             buffers; and each accepted file that has an owner over 0 is run by the engine with owner 0 everywhere, too:
             the same result, and the same words but for the owners
price        edges of prices, pulses, items and of what is lent, every choice of faults, every small recipe, edges of
             files, and N random files (100000) under random price tables: result, charges, total and every word of both
             buffers
card         every number of items in card buffers of every length, numbers of every count of digits, every end, every choice
             of faults, every small recipe, edges of files, and N random files (50000) under random price tables: result,
             every byte of the card's buffer and every word of both others; and the engine's card is read back column by
             column, beside recipe_price of the same
save         words at the edges, every choice of faults, every term of up to 3 words, and N times (20000) random words in a
             random buffer: answer and every byte of the buffer; runs that are saved and go on, of every small recipe, of
             recipes that outgrow a file, and N times of a random recipe: as one run, result and every word of both buffers;
             files of N/4 random recipes that a release before U4 has saved: accepted, result and every word of both
             buffers
node         every kind with telling operands and parts, every 3 words of an alphabet, the deepest words that a run has, and N
             times (40000) random words: how many words the whole node at each place has, and at places past the end; by
             recipe_node, and by the same without the short way for words without parts
list         files at the edges, two long recipes, and those of N random files (3000) that end soon: every byte that the
             listing program, target/bin/listing, prints of each
stack        the deepest runs in 64, 1,024, 4,096 and 16,384 words, priced with a card and without, the deepest files, checked
             and saved, and the deepest nodes, each on the stack that include/recipe.h says; each try is a process of its
             own. With --find: the smallest stack that serves each, in whole pages. With --kib (or --bytes): one try of run
             (the default), check, save or node, with W words (16384), which a signal ends where the stack is too small
--seed S     random files depend on the seed (1) and their index alone
--start I    begin with random file I; the files that are the same every time are left out unless I is 0
--all-reached  fail if a rule, an end, a class of steps before an end (call, conversion, other) or a refusal was never
             reached; of runs, also a kind of value that Scheme's if0 tests; of pricings, also an order of two refusals, a
             number of items, a pump or a band; of cards, also an order, a length of the buffer for each number of items
             and each end, or a number of digits; of saves, also an order, a place, a length of the buffer, two ends of a run
             and the one that goes on, 20,000 of these, or an end that a file saved before U4 no longer comes to; of
             nodes, a kind, a kind that is none, an operand past its range, a fault in a part, a place past the end or a
             size. Of all but cards, listings and nodes also: owner 0, 1 to 254 or 255 accepted; a refusal 6 or 7 for an owner
             alone, by the rule and by where in the type it stands; a refusal 3 for an owner over 255 by where its type
             stands; of runs, a lump opened, sealed for another owner, brought over in a list or a function, and a run as
             without owners; of nodes, an L with each kind of owner, whole or not. Of checks and saves also: a refusal 6 at each
             node that can have no type, in each way, at the root, inside, deep and the lowest of several, and a refusal 7 by
             where the declared type differs; of all others but nodes, a 6 inside the term and a 7 behind the first word

Status 0: no difference; 1: a difference, shrunk and shown; 2: not understood, or built without the engine.
";

/// The listing program, as `./listing` builds it at its first call, and the gate.
const LISTING: &str = concat!(env!("CARGO_MANIFEST_DIR"), "/../../target/bin/listing");

fn main() -> ExitCode {
    let mut args = Args::new(std::env::args().skip(1));
    if args.flag("--help") {
        say(HELP.trim_end());
        return ExitCode::SUCCESS;
    }
    let outcome = match args.word().as_deref() {
        Some("check") => check(args),
        Some("run") => run(args),
        Some("price") => price(args),
        Some("card") => card(args),
        Some("save") => save(args),
        Some("node") => node(args),
        Some("list") => list(args),
        Some("stack") => stack(args),
        _ => Err(Fault::Usage("check, run, price, card, save, node, list or stack is due; see --help".into())),
    };
    match outcome {
        Ok(()) => ExitCode::SUCCESS,
        Err(Fault::Difference(shown)) => {
            say(shown.trim_end());
            ExitCode::from(1)
        }
        Err(Fault::Usage(message)) => {
            eprintln!("compare: {message}");
            ExitCode::from(2)
        }
    }
}

enum Fault {
    Difference(String),
    Usage(String),
}

fn check(args: Args) -> Result<(), Fault> {
    let (plan, all_reached) = plan(args, 200_000)?;
    let engine = linked_check().ok_or(without("check"))?;
    let counts = on_large_stack(|| compare_check(engine, plan)).map_err(difference)?;
    say(format!("{} files, no difference", counts.files));
    finish(counts.of_checks(), all_reached)
}

fn run(args: Args) -> Result<(), Fault> {
    let (plan, all_reached) = plan(args, 100_000)?;
    let engine = linked_run().ok_or(without("run"))?;
    let counts: Counts = on_large_stack(|| compare_run(engine, plan)).map_err(difference)?;
    let Counts { files, runs, laws, .. } = counts;
    say(format!("{files} files, {runs} runs, no difference; demand 3 tried on {laws} terms"));
    finish(counts.of_runs(), all_reached)
}

fn price(args: Args) -> Result<(), Fault> {
    let (plan, all_reached) = plan(args, 100_000)?;
    let engine = linked_price().ok_or(without("run"))?;
    let counts = on_large_stack(|| compare_price(engine, plan)).map_err(difference)?;
    say(format!("{} pricings, no difference", counts.pricings));
    finish(counts.rows(), all_reached)
}

fn card(args: Args) -> Result<(), Fault> {
    let (plan, all_reached) = plan(args, 50_000)?;
    let (price, card) = linked_price().zip(linked_card()).ok_or(without("run"))?;
    let counts = on_large_stack(|| compare_card(CardingEngine { price, card }, plan)).map_err(difference)?;
    say(format!("{} cards, no difference", counts.cards));
    finish(counts.rows(), all_reached)
}

fn save(args: Args) -> Result<(), Fault> {
    let (plan, all_reached) = plan(args, 20_000)?;
    let linked = linked_check().zip(linked_run()).zip(linked_save());
    let ((check, run), save) = linked.ok_or(without("run"))?;
    let engine = SavingEngine { check, run, save };
    let counts = on_large_stack(|| compare_save(engine, plan)).map_err(difference)?;
    let (saves, pairs, earlier) = (counts.saves, counts.pairs, &counts.earlier);
    let (files, laws) = (earlier.files, earlier.runs.laws);
    say(format!("{saves} saves, {pairs} runs saved and gone on with, {files} files saved before U4, no difference"));
    say(format!("of files saved before U4, demand 3 tried on {laws} terms"));
    finish(counts.rows(), all_reached)
}

fn node(args: Args) -> Result<(), Fault> {
    let (plan, all_reached) = plan(args, 40_000)?;
    let (node, walked) = linked_node().zip(linked_node_walked()).ok_or(without("run"))?;
    let counts = on_large_stack(|| compare_node(NodeReaders { node, walked }, plan)).map_err(difference)?;
    say(format!("{} times asked, no difference", counts.asks));
    finish(counts.rows(), all_reached)
}

fn list(args: Args) -> Result<(), Fault> {
    let (plan, all_reached) = plan(args, 3_000)?;
    let program = Path::new(LISTING);
    if !program.exists() {
        return Err(Fault::Usage("target/bin/listing is not built; ./listing FILE builds it".into()));
    }
    let counts = on_large_stack(|| compare_list(program, plan)).map_err(difference)?;
    say(format!("{} files, no difference", counts.files));
    finish(counts.of_listings(), all_reached)
}

/// Tries each stack that the header says, or finds what serves, in processes of their own; or one stack in this process.
fn stack(mut args: Args) -> Result<(), Fault> {
    let find = args.flag("--find");
    let of = args.named("--of", "run, check, save or node").map_err(Fault::Usage)?;
    let words = args.number("--words", MOST_WORDS as u64).map_err(Fault::Usage)? as usize;
    let kib = args.number("--kib", 0).map_err(Fault::Usage)?;
    let bytes = args.number("--bytes", 1_024 * kib).map_err(Fault::Usage)? as usize;
    args.finish().map_err(Fault::Usage)?;
    if !(FEWEST_WORDS..=MOST_WORDS).contains(&words) {
        return Err(Fault::Usage(format!("--words needs a number from {FEWEST_WORDS} to {MOST_WORDS}, not {words}")));
    }
    if bytes > 0 {
        return try_stack(of.as_deref().unwrap_or("run"), Room { words, bytes });
    }
    let figures = figures(HEADER).map_err(Fault::Usage)?;
    let program =
        std::env::current_exe().map_err(|fault| Fault::Usage(format!("this program is not found: {fault}")))?;
    let all = if find { find_all } else { try_all };
    let told = all(&|figure| try_figure(&program, figure), &figures).map_err(difference)?;
    told.into_iter().for_each(say);
    Ok(())
}

/// Tries one operation on one stack, which ends this process by a signal if it is too small.
fn try_stack(of: &str, room: Room) -> Result<(), Fault> {
    let told = match of {
        "run" => {
            let linked = linked_run().zip(linked_price()).zip(linked_card());
            let ((run, price), card) = linked.ok_or(without("run"))?;
            vec![compare_stack(run, room), compare_priced_stack(price, room), compare_carded_stack(card, room)]
        }
        "check" => vec![compare_checked_stack(linked_check().ok_or(without("check"))?, room.bytes)],
        "save" => vec![compare_saved_stack(linked_save().ok_or(without("run"))?, room.bytes)],
        "node" => vec![compare_asked_stack(linked_node().ok_or(without("run"))?, room)],
        _ => return Err(Fault::Usage(format!("--of needs run, check, save or node, not {of}"))),
    };
    for lines in told {
        lines.map_err(difference)?.into_iter().for_each(say);
    }
    say(format!("a stack of {} bytes serves", room.bytes));
    Ok(())
}

fn plan(mut args: Args, files: u64) -> Result<(Plan, bool), Fault> {
    let files = args.number("--files", files).map_err(Fault::Usage)?;
    let seed = args.number("--seed", 1).map_err(Fault::Usage)?;
    let start = args.number("--start", 0).map_err(Fault::Usage)?;
    let all_reached = args.flag("--all-reached");
    args.finish().map_err(Fault::Usage)?;
    say(format!("seed {seed}, random files {start} to {}", start + files));
    Ok((Plan { files, seed, start }, all_reached))
}

/// Prints the counts, and fails on a row without any if all must be reached.
fn finish(rows: Vec<(String, u64)>, all_reached: bool) -> Result<(), Fault> {
    say(table(&rows).trim_end());
    match missing(&rows)[..] {
        [] => Ok(()),
        _ if !all_reached => Ok(()),
        ref names => Err(Fault::Difference(format!("never reached: {}\n", names.join("; ")))),
    }
}

fn difference(shown: String) -> Fault {
    Fault::Difference(format!("DIFFERENCE\n{shown}"))
}

fn without(feature: &str) -> Fault {
    Fault::Usage(format!("built without the engine; build with --features {feature}"))
}
