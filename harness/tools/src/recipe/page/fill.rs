//! The page's skeleton filled, and texts made safe to stand in it.

/// A text as it may stand between tags or in an attribute.
pub fn escaped(text: &str) -> String {
    let mut safe = String::new();
    for letter in text.chars() {
        match letter {
            '&' => safe.push_str("&amp;"),
            '<' => safe.push_str("&lt;"),
            '>' => safe.push_str("&gt;"),
            '"' => safe.push_str("&quot;"),
            '\'' => safe.push_str("&#39;"),
            _ => safe.push(letter),
        }
    }
    safe
}

/// A text as a string of the page's data. No letter of it can end the data or begin a tag.
pub fn quoted(text: &str) -> String {
    let mut safe = String::from("\"");
    for letter in text.chars() {
        match letter {
            '"' | '\\' | '<' | '>' | '&' | '\u{7f}' => safe.push_str(&format!("\\u{:04x}", letter as u32)),
            letter if letter < ' ' => safe.push_str(&format!("\\u{:04x}", letter as u32)),
            _ => safe.push(letter),
        }
    }
    safe + "\""
}

/// The skeleton with each `{{name}}` replaced. What is put in is not looked at again, so that a recipe may say `{{run}}`.
pub fn filled(skeleton: &str, parts: &[(&str, String)]) -> String {
    let mut pieces = skeleton.split("{{");
    let mut page = pieces.next().unwrap_or_default().to_string();
    for piece in pieces {
        let (name, rest) = piece.split_once("}}").unwrap_or((piece, ""));
        let part = parts.iter().find(|(due, _)| *due == name);
        page.push_str(part.map_or("", |(_, text)| text));
        page.push_str(rest);
    }
    page
}
