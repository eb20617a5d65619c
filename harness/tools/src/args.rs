//! Options on the command line: `--name` or `-n` alone, with a number or with a word, and plain words. A word that begins with `-` is
//! an option, but for `-` itself.

pub struct Args {
    words: Vec<String>,
}

impl Args {
    pub fn new(words: impl IntoIterator<Item = String>) -> Args {
        Args { words: words.into_iter().collect() }
    }

    /// Takes an option without a number.
    pub fn flag(&mut self, name: &str) -> bool {
        let at = self.words.iter().position(|word| word == name);
        at.map(|at| self.words.remove(at)).is_some()
    }

    /// Takes an option with a number, or gives the default.
    pub fn number(&mut self, name: &str, default: u64) -> Result<u64, String> {
        let Some(at) = self.words.iter().position(|word| word == name) else { return Ok(default) };
        self.words.remove(at);
        if at >= self.words.len() {
            return Err(format!("{name} needs a number"));
        }
        let word = self.words.remove(at);
        word.replace('_', "").parse().map_err(|_| format!("{name} needs a number, not {word}"))
    }

    /// Takes an option with a word, if it is there.
    pub fn named(&mut self, name: &str, what: &str) -> Result<Option<String>, String> {
        let Some(at) = self.words.iter().position(|word| word == name) else { return Ok(None) };
        self.words.remove(at);
        match self.words.get(at) {
            Some(word) if is_plain(word) => Ok(Some(self.words.remove(at))),
            _ => Err(format!("{name} needs {what}")),
        }
    }

    /// Takes the next plain word, if there is one.
    pub fn word(&mut self) -> Option<String> {
        let at = self.words.iter().position(|word| is_plain(word))?;
        Some(self.words.remove(at))
    }

    /// Complains about what nothing has taken.
    pub fn finish(self) -> Result<(), String> {
        match self.words.first() {
            Some(word) => Err(format!("{word} is not understood")),
            None => Ok(()),
        }
    }
}

/// Whether a word is no option.
fn is_plain(word: &str) -> bool {
    word == "-" || !word.starts_with('-')
}
