//! Texts as pictures show them.

/// So many characters of a name are shown.
const LONGEST_NAME: usize = 18;

/// A name short enough to be shown, with an ellipsis in place of the rest.
pub fn shortened(name: &str) -> String {
    if name.chars().count() <= LONGEST_NAME {
        return name.to_string();
    }
    let kept: String = name.chars().take(LONGEST_NAME - 1).collect();
    kept.trim_end().to_string() + "…"
}

/// About how wide a text is, in parts of the size of its letters.
pub fn width(text: &str) -> f64 {
    let letter = |letter: char| match letter {
        '\u{1100}'.. => 1.0,
        _ if letter.is_uppercase() => 0.75,
        _ => 0.6,
    };
    text.chars().map(letter).sum()
}

/// The lines of a text, none wider than the limit unless by a single word.
pub fn wrapped(text: &str, limit: f64) -> Vec<String> {
    let mut lines: Vec<String> = Vec::new();
    for word in text.split_whitespace() {
        match lines.last_mut() {
            Some(line) if width(line) + width(" ") + width(word) <= limit => *line = format!("{line} {word}"),
            _ => lines.push(word.to_string()),
        }
    }
    lines
}

/// A text with line feeds and tabs as spaces, and without characters that XML does not allow.
pub fn allowed(text: &str) -> String {
    let kept = |letter: char| match letter {
        '\t' | '\n' | '\r' => ' ',
        '\u{fffe}' | '\u{ffff}' => '\u{fffd}',
        _ if letter.is_control() => '\u{fffd}',
        _ => letter,
    };
    text.chars().map(kept).collect()
}

/// A text as it stands in XML.
pub fn escaped(text: &str) -> String {
    allowed(text).replace('&', "&amp;").replace('<', "&lt;").replace('>', "&gt;").replace('"', "&quot;")
}
