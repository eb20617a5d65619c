//! `recipe run --save`: what a run leaves, saved as a recipe file to go on with.

use super::explain::explain_save;
use super::input::Input;
use super::run::WORDS;
use super::whole::write_whole;
use super::{without, Desk, Failure};
use crate::args::Args;
use crate::engine::{RecipeRun, Save};
use model::file::{regions, words_of, MOST_BYTES};
use model::run::MOST_WORDS;
use model::{End, Refusal};

/// The engine's save, and the name of the file that it is for.
pub struct Saving {
    engine: Save,
    name: String,
}

impl Saving {
    /// What the command asks for; none where it does not.
    pub fn new(args: &mut Args, desk: &Desk<'_>) -> Result<Option<Saving>, Failure> {
        let Some(name) = args.named("--save", "the name of a file to write")? else { return Ok(None) };
        let engine = desk.engine.save.ok_or(without("run"))?;
        Ok(Some(Saving { engine, name }))
    }

    /// Writes the file of what a run left, if there is something to go on with. Answers with what to say of it.
    pub fn save(&self, input: &Input, result: &RecipeRun, left: &[u32], capacity: usize) -> Result<String, Failure> {
        const NOT: &str = "nothing is saved:";
        match result.end {
            end if end == End::Value as u32 => return Ok(format!("{NOT} the run has come to its value\n")),
            end if end == End::Error as u32 => return Ok(format!("{NOT} an error leaves no term\n")),
            _ => {}
        }
        let file = self.file(input, left)?;
        let name = &self.name;
        write_whole(name, &file).map_err(|fault| format!("cannot write {name}: {fault}"))?;
        Ok(format!("saved in {name}, {} bytes; {}\n", file.len(), self.how_to_go_on(result, capacity)))
    }

    /// The file of the term left and of the type that the run's own file declares.
    fn file(&self, input: &Input, left: &[u32]) -> Result<Vec<u8>, Failure> {
        let words = words_of(&input.bytes).map_err(|_| "the engine has run a file of a wrong size")?;
        let declared = regions(&words).map_err(|_| "the engine has run a file with a wrong header")?.declared;
        let mut buffer = vec![0; MOST_BYTES];
        let saved = (self.engine)(declared, left, &mut buffer);
        if saved.refusal != 0 {
            let refusal = Refusal::new(saved.refusal, saved.place as usize);
            return Err(Failure::Refused(explain_save(&refusal, declared.len() + left.len())));
        }
        buffer.truncate(saved.bytes as usize);
        Ok(buffer)
    }

    /// The command that goes on: with as many words as this run had, or as the next term wants.
    fn how_to_go_on(&self, result: &RecipeRun, capacity: usize) -> String {
        let words = if result.end == End::Full as u32 { result.wanted as usize } else { capacity };
        match words {
            WORDS => format!("to go on: recipe run {}", self.name),
            _ if result.end == End::Full as u32 && words > MOST_WORDS => {
                format!("no run can go on: the next term has {words} words, and {MOST_WORDS} are the most of a run")
            }
            _ => format!("to go on: recipe run {} --words {words}", self.name),
        }
    }
}
