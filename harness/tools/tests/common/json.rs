//! A reader of JSON: of the data in a page, and of what a browser answers.

use std::iter::Peekable;
use std::str::Chars;

/// A value of JSON.
#[derive(Clone, Debug, PartialEq)]
pub enum Json {
    Nothing,
    Truth(bool),
    Number(f64),
    Text(String),
    List(Vec<Json>),
    Object(Vec<(String, Json)>),
}

impl Json {
    /// The whole text as one value.
    pub fn read(text: &str) -> Json {
        let mut letters = text.chars().peekable();
        let value = value(&mut letters);
        pass_blanks(&mut letters);
        assert_eq!(letters.next(), None, "nothing follows the value");
        value
    }

    /// The field of a name; nothing where there is none.
    pub fn field(&self, name: &str) -> &Json {
        match self {
            Json::Object(fields) => {
                fields.iter().find(|field| field.0 == name).map_or(&Json::Nothing, |field| &field.1)
            }
            _ => &Json::Nothing,
        }
    }

    pub fn list(&self) -> &[Json] {
        match self {
            Json::List(items) => items,
            other => panic!("a list is due, not {other:?}"),
        }
    }

    pub fn text(&self) -> &str {
        match self {
            Json::Text(text) => text,
            other => panic!("a text is due, not {other:?}"),
        }
    }

    pub fn number(&self) -> i64 {
        match self {
            Json::Number(number) if number.fract() == 0.0 => *number as i64,
            other => panic!("a whole number is due, not {other:?}"),
        }
    }

    /// A list of whole numbers.
    pub fn numbers(&self) -> Vec<i64> {
        self.list().iter().map(Json::number).collect()
    }
}

fn pass_blanks(letters: &mut Peekable<Chars<'_>>) {
    while letters.next_if(|letter| letter.is_whitespace()).is_some() {}
}

fn value(letters: &mut Peekable<Chars<'_>>) -> Json {
    pass_blanks(letters);
    match letters.peek() {
        Some('"') => Json::Text(text(letters)),
        Some('[') => Json::List(items(letters, ']', value)),
        Some('{') => Json::Object(items(letters, '}', field)),
        _ => plain(letters),
    }
}

/// What stands between brackets, with commas between.
fn items<T>(letters: &mut Peekable<Chars<'_>>, close: char, item: fn(&mut Peekable<Chars<'_>>) -> T) -> Vec<T> {
    letters.next();
    let mut found = Vec::new();
    loop {
        pass_blanks(letters);
        if letters.next_if_eq(&close).is_some() {
            return found;
        }
        if !found.is_empty() {
            assert_eq!(letters.next(), Some(','), "a comma stands between two");
        }
        found.push(item(letters));
    }
}

fn field(letters: &mut Peekable<Chars<'_>>) -> (String, Json) {
    pass_blanks(letters);
    let name = text(letters);
    pass_blanks(letters);
    assert_eq!(letters.next(), Some(':'), "a colon stands behind a name");
    (name, value(letters))
}

/// A text in quotation marks. Letters over 65,535 are spelt as two halves.
fn text(letters: &mut Peekable<Chars<'_>>) -> String {
    assert_eq!(letters.next(), Some('"'), "a text starts with a quotation mark");
    let mut halves = Vec::new();
    loop {
        match letters.next().expect("the text ends") {
            '"' => return String::from_utf16(&halves).expect("letters"),
            '\\' => halves.push(spelt(letters)),
            letter => halves.extend_from_slice(letter.encode_utf16(&mut [0; 2])),
        }
    }
}

/// A letter behind a backslash.
fn spelt(letters: &mut Peekable<Chars<'_>>) -> u16 {
    match letters.next().expect("a letter") {
        'u' => {
            let digits: String = letters.by_ref().take(4).collect();
            u16::from_str_radix(&digits, 16).expect("four digits")
        }
        'n' => u16::from(b'\n'),
        't' => u16::from(b'\t'),
        'r' => u16::from(b'\r'),
        'b' => 8,
        'f' => 12,
        letter => letter as u16,
    }
}

fn plain(letters: &mut Peekable<Chars<'_>>) -> Json {
    let mut word = String::new();
    while let Some(letter) = letters.next_if(|letter| letter.is_ascii_alphanumeric() || "+-.".contains(*letter)) {
        word.push(letter);
    }
    match word.as_str() {
        "null" => Json::Nothing,
        "true" | "false" => Json::Truth(word == "true"),
        _ => Json::Number(word.parse().unwrap_or_else(|_| panic!("{word} is no number"))),
    }
}
