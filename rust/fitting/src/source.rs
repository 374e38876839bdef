//! Places in a text. A message about a place has the name of the file, the line and the column, the
//! line itself with a caret below the place, and what to do.

/// Of a line that is longer than this, only a part is shown.
const WIDTH: usize = 76;

/// What is wrong at a place of a text, and what to do about it.
#[derive(Clone, Debug, PartialEq, Eq)]
pub struct Fault {
    /// The byte of the text at which the place begins.
    pub at: usize,
    pub what: String,
    pub advice: String,
}

impl Fault {
    pub fn new(at: usize, what: impl Into<String>, advice: impl Into<String>) -> Fault {
        Fault {
            at,
            what: what.into(),
            advice: advice.into(),
        }
    }

    /// The whole message, for a text of this name.
    pub fn message(&self, name: &str, text: &str) -> String {
        let pointed = pointed(name, text, self.at, &self.what);
        format!("{pointed}\n  {}", self.advice)
    }
}

/// A text with a line feed for each line end, also for a carriage return alone.
pub fn line_feeds(text: &str) -> String {
    text.replace("\r\n", "\n").replace('\r', "\n")
}

/// The line and the column of a place, both from 1.
pub fn line_and_column(text: &str, at: usize) -> (usize, usize) {
    let before = &text[..at];
    let start = before.rfind('\n').map_or(0, |newline| newline + 1);
    let line = before.matches('\n').count() + 1;
    (line, before[start..].chars().count() + 1)
}

/// What is at a place, with the line that it is in and a caret.
pub fn pointed(name: &str, text: &str, at: usize, what: &str) -> String {
    let (line, column) = line_and_column(text, at);
    let shown = text.split('\n').nth(line - 1).unwrap_or("");
    let (shown, caret) = clipped(shown.trim_end(), column - 1);
    let shown = format!("    {shown}");
    let shown = shown.trim_end();
    format!("{name}:{line}:{column}: {what}\n{shown}\n    {caret}^")
}

/// A line, or the part of it around a place, and the blanks before the caret.
fn clipped(line: &str, place: usize) -> (String, String) {
    let characters: Vec<char> = line.chars().collect();
    let start = match characters.len() > WIDTH {
        true => place.saturating_sub(WIDTH / 2),
        false => 0,
    };
    let end = characters.len().min(start + WIDTH);
    let (before, after) = (
        if start > 0 { "..." } else { "" },
        if end < characters.len() { "..." } else { "" },
    );
    let shown: String = characters[start..end].iter().collect();
    // Tabs stay tabs, so that the caret stands below its place however wide they are.
    let blanks = (start..place).map(|place| match characters.get(place) {
        Some('\t') => '\t',
        _ => ' ',
    });
    let blanks: String = before.chars().map(|_| ' ').chain(blanks).collect();
    (format!("{before}{shown}{after}"), blanks)
}

#[cfg(test)]
mod tests {
    use super::*;

    #[test]
    fn the_caret_stands_below_its_place() {
        let message = Fault::new(7, "this", "do that").message("f", "a\n\tbä c\n");
        assert_eq!(message, "f:2:5: this\n    \tbä c\n    \t   ^\n  do that");
    }

    #[test]
    fn a_long_line_is_shown_in_part() {
        let text = format!("{}!{}", "a".repeat(500), "b".repeat(500));
        let message = pointed("f", &text, 500, "this");
        let lines: Vec<&str> = message.lines().collect();
        assert_eq!(lines[0], "f:1:501: this");
        assert_eq!(lines[1].len(), 4 + 3 + WIDTH + 3);
        let caret = lines[2].find('^').expect("a caret");
        assert_eq!(lines[1].as_bytes()[caret], b'!');
    }
}
