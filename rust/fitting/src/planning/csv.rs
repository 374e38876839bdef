//! The lines and cells of CSV as spreadsheets write it. Commas, semicolons or tabs separate the
//! cells, whichever comes first in the text. A cell may stand in quotation marks; a quotation mark
//! inside it is doubled. Blanks around cells and lines without text do not count.

use crate::names::cut;
use crate::source::{Fault, line_and_column, line_feeds};

/// A text and the name that messages give it.
#[derive(Clone, Debug)]
pub struct File {
    pub name: String,
    pub text: String,
}

impl File {
    /// A file of this text, with a line feed for each line end.
    pub fn new(name: &str, text: &str) -> File {
        File {
            name: name.to_string(),
            text: line_feeds(text),
        }
    }

    /// The line of a place, from 1.
    pub fn line(&self, at: usize) -> usize {
        line_and_column(&self.text, at).0
    }
}

/// A cell without its quotation marks and the blanks around it, and the byte at which it
/// begins.
#[derive(Clone, Debug, PartialEq, Eq)]
pub struct Cell {
    pub text: String,
    pub at: usize,
}

impl Cell {
    /// The cell as a message names it, on one line.
    pub fn shown(&self) -> String {
        match self.text.is_empty() {
            true => "nothing".to_string(),
            false => format!("`{}`", cut(&self.text)),
        }
    }
}

/// A line that has text: its cells up to the last cell with text.
#[derive(Clone, Debug, Default, PartialEq, Eq)]
pub struct Line {
    pub cells: Vec<Cell>,
    /// The byte behind its last cell.
    pub end: usize,
}

impl Line {
    /// The cell of a column; an empty cell if the line ends before it.
    pub fn cell(&self, column: usize) -> Cell {
        let past = Cell {
            text: String::new(),
            at: self.end,
        };
        self.cells.get(column).cloned().unwrap_or(past)
    }
}

/// The lines of a text that have text in them.
pub fn lines(text: &str) -> Result<Vec<Line>, Fault> {
    let separator = text.chars().find(|&c| separates(c)).unwrap_or(',');
    let mut lines = Vec::new();
    let mut line = Line::default();
    // The cells since the last that has text.
    let mut empty = Vec::new();
    let mut at = 0;
    loop {
        let (cell, end, next) = cell(text, at, separator)?;
        if cell.text.is_empty() {
            empty.push(cell);
        } else {
            line.cells.append(&mut empty);
            line.cells.push(cell);
            line.end = end;
        }
        let mark = text[next..].chars().next();
        if mark != Some(separator) {
            empty.clear();
            if !line.cells.is_empty() {
                lines.push(std::mem::take(&mut line));
            }
        }
        match mark {
            Some(mark) => at = next + mark.len_utf8(),
            None => return Ok(lines),
        }
    }
}

fn separates(character: char) -> bool {
    [',', ';', '\t'].contains(&character)
}

/// The cell from a byte on, the byte behind it, and that of the mark that ends it: the
/// separator, a line feed or the end of the text.
fn cell(text: &str, from: usize, separator: char) -> Result<(Cell, usize, usize), Fault> {
    let ends = |c: char| c == separator || c == '\n';
    let behind_blanks = |at: usize| {
        let is_none = |c: char| ends(c) || !c.is_whitespace();
        text[at..]
            .find(is_none)
            .map_or(text.len(), |more| at + more)
    };
    let at = behind_blanks(from);
    if text[at..].starts_with('"') {
        let (content, end) = quoted(text, at)?;
        let next = behind_blanks(end);
        return match text[next..].chars().next() {
            Some(other) if !ends(other) => Err(Fault::new(
                next,
                format!("expected the cell's end, found `{other}`"),
                "quotation marks stand around the whole cell; one within it is doubled",
            )),
            _ => Ok((
                Cell {
                    text: content.trim().to_string(),
                    at,
                },
                end,
                next,
            )),
        };
    }
    let next = text[at..].find(ends).map_or(text.len(), |more| at + more);
    let content = text[at..next].trim_end().to_string();
    let end = at + content.len();
    Ok((Cell { text: content, at }, end, next))
}

/// What stands in quotation marks, of which the first is at a byte, and the byte behind the
/// last.
fn quoted(text: &str, at: usize) -> Result<(String, usize), Fault> {
    let mut content = String::new();
    let mut from = at + 1;
    while let Some(length) = text[from..].find('"') {
        content += &text[from..from + length];
        from += length + 1;
        if !text[from..].starts_with('"') {
            return Ok((content, from));
        }
        content.push('"');
        from += 1;
    }
    Err(Fault::new(
        at,
        "this quotation mark is not closed",
        "write one behind the cell too, or leave it out",
    ))
}

#[cfg(test)]
mod tests {
    use super::*;

    /// The cells of each line.
    fn cells(text: &str) -> Vec<Vec<String>> {
        let lines = lines(text).expect("CSV");
        let texts = |line: Line| line.cells.into_iter().map(|cell| cell.text).collect();
        lines.into_iter().map(texts).collect()
    }

    fn fault(text: &str) -> String {
        let fault = lines(text).expect_err("no CSV");
        fault.message("f", text)
    }

    #[test]
    fn cells_are_parted_as_in_the_first_line() {
        assert_eq!(cells("a,b;c\n1,2\t\n"), [["a", "b;c"], ["1", "2"]]);
        assert_eq!(cells("a;b,c\n1;2"), [["a", "b,c"], ["1", "2"]]);
        assert_eq!(cells("a\tb c\n 1 \t2,"), [["a", "b c"], ["1", "2,"]]);
        assert_eq!(cells("a"), [["a"]]);
    }

    #[test]
    fn blanks_and_lines_without_text_do_not_count() {
        assert_eq!(cells("").len(), 0);
        assert_eq!(cells("\n \n,,\n\u{a0}, \n").len(), 0);
        assert_eq!(
            cells("\n a , b ,,\n,,\n , c\n"),
            [vec!["a", "b"], vec!["", "c"]]
        );
    }

    #[test]
    fn quotation_marks_stand_around_cells() {
        assert_eq!(
            cells("\"a\", \"b,\nc\" ,\" \"\"d\"\" \"\n"),
            [["a", "b,\nc", "\"d\""]]
        );
        assert_eq!(cells("a\"b,\"\"\n"), [["a\"b"]]);
        assert_eq!(
            fault("a,\n b,\"c\nd"),
            "f:2:4: this quotation mark is not closed\n     b,\"c\n       ^\n  \
             write one behind the cell too, or leave it out"
        );
        assert_eq!(
            fault("\"a\" b,c"),
            "f:1:5: expected the cell's end, found `b`\n    \"a\" b,c\n        ^\n  \
             quotation marks stand around the whole cell; one within it is doubled"
        );
    }

    #[test]
    fn cells_have_their_places() {
        let lines = lines(" a ,\"b\" ,,\n\n,c").expect("CSV");
        let places = |line: &Line| -> Vec<usize> { line.cells.iter().map(|c| c.at).collect() };
        assert_eq!(places(&lines[0]), [1, 4]);
        assert_eq!(lines[0].end, 7);
        assert_eq!(lines[0].cell(2).at, 7);
        assert_eq!(places(&lines[1]), [12, 13]);
    }

    #[test]
    fn every_line_end_is_read() {
        for text in ["a,b\n\nc", "a,b\r\n\r\nc\r\n", "a,b\r\rc\r"] {
            let file = File::new("f", text);
            let lines = lines(&file.text).expect("CSV");
            assert_eq!(lines.len(), 2);
            assert_eq!(file.line(lines[1].cells[0].at), 3);
        }
    }

    #[test]
    fn a_long_cell_is_shown_in_part() {
        let shown = |text: &str| {
            let (text, at) = (text.to_string(), 0);
            Cell { text, at }.shown()
        };
        assert_eq!(shown(""), "nothing");
        assert_eq!(shown("höhe"), "`höhe`");
        assert_eq!(shown("a\nb"), "`a...`");
        assert_eq!(shown(&"a".repeat(41)), format!("`{}...`", "a".repeat(40)));
    }
}
