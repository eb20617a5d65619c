//! The table of steps measured: what it holds, and its text.

/// What was measured of some steps of a recipe, in seconds for all of them together.
pub struct Measured {
    pub name: String,
    pub steps: usize,
    /// Of all the next terms together.
    pub words: usize,
    /// Words of each buffer lent.
    pub lent: usize,
    pub tree: f64,
    /// None where the engine is not linked.
    pub engine: Option<f64>,
    /// By the archive of the landing before; None where none is linked, and its columns are then left out.
    pub old: Option<f64>,
    pub copy: f64,
}

/// Letters of a name.
const NAME: usize = 23;

/// The lines that stand over the columns, with those of the old archive or without.
pub fn head(old: bool) -> [String; 2] {
    let works: Vec<&str> = ["tree", "engine"].into_iter().chain(old.then_some("old")).chain(["copy"]).collect();
    let width = 7 * works.len();
    let mut groups = format!("{:<NAME$} {:>18}{:>width$}", "", "", "nanoseconds a step");
    groups += &format!("{:>width$}{:>7}{:>8}", "nanoseconds a word", "tree/", "engine/");
    let mut names = format!("{:<NAME$} {:>6} {:>5} {:>5}", "recipe", "steps", "words", "lent");
    works.iter().chain(&works).for_each(|work| names += &format!("{work:>7}"));
    names += &format!("{:>7}{:>8}", "engine", "copy");
    if old {
        groups += &format!("{:>7}", "new/");
        names += &format!("{:>7}", "old");
    }
    [groups, names]
}

impl Measured {
    /// The row's text.
    pub fn row(&self) -> String {
        let mean = self.words.checked_div(self.steps).unwrap_or(0);
        let mut text = format!("{:<NAME$.NAME$} {:>6} {mean:>5} {:>5}", self.name, self.steps, self.lent);
        for count in [self.steps, self.words] {
            let each = |seconds: f64| 1e9 * seconds / count.max(1) as f64;
            self.works().for_each(|work| text += &format!("{:>7}", figure(work.map(each))));
        }
        text += &format!("{:>7}", figure(self.engine.map(|engine| self.tree / engine)));
        text += &format!("{:>8}", figure(self.engine.map(|engine| engine / self.copy)));
        if let Some(old) = self.old {
            text += &format!("{:>7}", figure(self.engine.map(|engine| engine / old)));
        }
        text
    }

    /// The works' times in the order of their columns.
    fn works(&self) -> impl Iterator<Item = Option<f64>> {
        [Some(self.tree), self.engine].into_iter().chain(self.old.map(Some)).chain([Some(self.copy)])
    }
}

/// A figure in three digits or so; a dash where there is none.
pub fn figure(value: Option<f64>) -> String {
    match value {
        None => "-".into(),
        Some(v) if v >= 100.0 => format!("{v:.0}"),
        Some(v) if v >= 10.0 => format!("{v:.1}"),
        Some(v) => format!("{v:.2}"),
    }
}
