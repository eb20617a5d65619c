//! "Owners refuse recipes and change no run", tried on the engine: its run of a recipe with owners beside its run of the same recipe
//! with owner 0 for every lump. The model has no say in it.

use super::case::Case;
use super::run::by_engine;
use super::seen::Seen;
use crate::engine::{RecipeRun, Run};
use model::file::words_of;
use model::owners::{forgotten, owners, without_owners};

/// Tries the law on a run. Answers whether its file is accepted and has an owner over 0; a difference comes back shrunk and shown.
pub fn compare_ownerless(engine: Run, case: &Case) -> Result<bool, String> {
    tried_ownerless(engine, case, &by_engine(engine, case))
}

/// The same, of a run that was made.
pub fn tried_ownerless(engine: Run, case: &Case, owned: &Seen<RecipeRun>) -> Result<bool, String> {
    if !is_accepted(owned) || !has_owner(&case.file) {
        return Ok(false);
    }
    if alike_but_owners(owned, &ownerless(engine, case)) {
        return Ok(true);
    }
    let breaks = |case: &Case| {
        let owned = by_engine(engine, case);
        is_accepted(&owned) && !alike_but_owners(&owned, &ownerless(engine, case))
    };
    let small = case.shrunk(&mut |case| case.is_short() && breaks(case));
    let [owned, ownerless] = [by_engine(engine, &small), ownerless(engine, &small)];
    Err(format!("{}engine:\n{owned}engine, without owners:\n{ownerless}", small.show()))
}

/// Whether the file was accepted: refusal 8 is for the capacity alone.
fn is_accepted(seen: &Seen<RecipeRun>) -> bool {
    matches!(seen.answer.refusal, 0 | 8)
}

/// Whether a lump has another owner than 0.
fn has_owner(file: &[u8]) -> bool {
    words_of(file).is_ok_and(|words| owners(&words[4..]).any(|owner| owner > 0))
}

/// The engine's run of the same file with owner 0 for every lump, lent the same.
fn ownerless(engine: Run, case: &Case) -> Seen<RecipeRun> {
    by_engine(engine, &Case { file: without_owners(&case.file), ..case.clone() })
}

/// The same answer, and the same words in both buffers but for the owners in the words left.
fn alike_but_owners(owned: &Seen<RecipeRun>, ownerless: &Seen<RecipeRun>) -> bool {
    let answers = (owned.answer, owned.within) == (ownerless.answer, ownerless.within);
    answers && forgotten(&owned.first) == ownerless.first && owned.second == ownerless.second
}
