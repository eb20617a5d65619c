//! Benchmarks of the engine against the model, a plain copy and an older archive: works measured side by side in one run.
#![forbid(unsafe_code)]

use model::on_large_stack;
use std::process::ExitCode;
use tools::args::Args;
use tools::bench::{Part, ABOUT, ABOUT_OLD, PARTS};
use tools::old_engine::linked_run;
use tools::output::say;

const HELP: &str = "\
usage: bench [check | run | growth | price | save | node]

check    the check of growing files: engine and checker on trees
run      recipes run: a step of the engine and of the reducer on trees, a plain copy of the same words
growth   how a step's time grows with the words of the term
price    cans priced: a whole pricing of the engine against a whole run, and a whole card against the pricing
save     files saved: a whole save of the engine against the check of the file that it writes
node     nodes asked for at every place of a term, and at those of one word: before the short way and with it
All six where none is named. Build with --release and --features run; without the engine its columns are dashes.

RECIPE_OLD_ARCHIVE=PATH, set when this is built, links an archive of the landing before beside the engine's (PATH is
absolute, or from the top of the repository). Every table but those of prices, saves and nodes then has its times and the
ratio new/old too.
";

fn main() -> ExitCode {
    let mut args = Args::new(std::env::args().skip(1));
    if args.flag("--help") {
        say(HELP.trim_end());
        return ExitCode::SUCCESS;
    }
    let name = args.word();
    let known = name.as_deref().is_none_or(|name| PARTS.iter().any(|part| part.name == name));
    if let (false, _) | (_, Err(_)) = (known, args.finish()) {
        eprintln!("bench: check, run, growth, price, save or node is due; see --help");
        return ExitCode::from(2);
    }
    let asked = |part: &&Part| name.as_deref().is_none_or(|name| part.name == name);
    print_parts(&PARTS.iter().filter(asked).collect::<Vec<_>>());
    ExitCode::SUCCESS
}

/// What the figures are, each said once, and then the tables.
fn print_parts(parts: &[&Part]) {
    let mut abouts = vec![ABOUT];
    abouts.extend(linked_run().map(|_| ABOUT_OLD));
    abouts.extend(parts.iter().map(|part| part.about));
    abouts.dedup();
    say(abouts.concat());
    for part in parts {
        say(on_large_stack(part.tables).join("\n") + "\n");
    }
}
