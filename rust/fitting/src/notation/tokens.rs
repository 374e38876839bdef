//! Splits a text into words and marks, each with its place. Blanks and comments are left out. A
//! character that is in no word and no mark is a fault.

use crate::names::{cut, shown, unquotable};
use crate::source::Fault;

/// What a token is.
#[derive(Clone, Copy, Debug, PartialEq, Eq)]
pub enum Kind {
    /// A word with a small first letter, or what stands in quotation marks: the name of a
    /// type or a feature.
    Name,
    /// A word with a capital first letter, which names a shared node.
    Capital,
    /// Digits.
    Number,
    /// One of `[ ] { } : , ..`
    Mark,
    /// The end of the text, behind the last token.
    End,
}

/// A token and the byte at which it begins.
#[derive(Clone, Copy, Debug, PartialEq, Eq)]
pub struct Token<'a> {
    pub kind: Kind,
    pub text: &'a str,
    pub at: usize,
}

impl Token<'_> {
    /// Whether it is this mark.
    pub fn is(&self, mark: &str) -> bool {
        self.kind == Kind::Mark && self.text == mark
    }

    /// The token as a message names it.
    pub fn shown(&self) -> String {
        match self.kind {
            Kind::End => "the end of the text".to_string(),
            Kind::Name => format!("`{}`", shown(self.text)),
            _ => format!("`{}`", cut(self.text)),
        }
    }
}

/// Whether a character may stand in a word.
fn in_word(character: char) -> bool {
    character.is_alphanumeric() || "_-".contains(character)
}

/// Whether a word is a name that a type or a feature can have.
pub fn is_name(word: &str) -> bool {
    let first = word.chars().next();
    word.chars().all(in_word)
        && first.is_some_and(|first| !first.is_uppercase() && first.is_alphabetic())
}

/// The tokens of a text, the last of them [`Kind::End`].
pub fn tokens(text: &str) -> Result<Vec<Token<'_>>, Fault> {
    let mut tokens = Vec::new();
    let mut at = 0;
    let mut end = 0;
    while let Some(first) = text[at..].chars().next() {
        let rest = &text[at..];
        if first.is_whitespace() {
            at += first.len_utf8();
            continue;
        }
        if first == '#' {
            at += rest.find('\n').unwrap_or(rest.len());
            continue;
        }
        if first == '"' {
            let text = quoted(rest, at)?;
            tokens.push(Token {
                kind: Kind::Name,
                text,
                at,
            });
            at += text.len() + 2;
            end = at;
            continue;
        }
        let length = match first {
            '[' | ']' | '{' | '}' | ':' | ',' => 1,
            '.' if rest.starts_with("..") => 2,
            _ => rest.find(|c| !in_word(c)).unwrap_or(rest.len()),
        };
        let token = &rest[..length];
        let kind = match first {
            _ if length == 0 => return Err(meaningless(at, first)),
            _ if !in_word(first) => Kind::Mark,
            _ if token.chars().all(|c| c.is_ascii_digit()) => Kind::Number,
            _ if first.is_uppercase() => Kind::Capital,
            _ if is_name(token) => Kind::Name,
            _ => return Err(misnamed(at, token)),
        };
        tokens.push(Token {
            kind,
            text: token,
            at,
        });
        at += length;
        end = at;
    }
    tokens.push(Token {
        kind: Kind::End,
        text: "",
        at: end,
    });
    Ok(tokens)
}

/// The name in quotation marks that a text begins with.
pub fn quoted(text: &str, at: usize) -> Result<&str, Fault> {
    let line = text[1..].split('\n').next().unwrap_or("");
    let Some((name, _)) = line.split_once('"') else {
        let advice = "write one behind the name too, on the same line";
        return Err(Fault::new(at, "this quotation mark is not closed", advice));
    };
    match unquotable(name) {
        None => Ok(name),
        Some(what) => Err(Fault::new(at, what, "write a name, as in `\"ACE\"`")),
    }
}

fn meaningless(at: usize, character: char) -> Fault {
    let advice = match character {
        '(' | ')' => "write links in brackets: type[feature: value]",
        '=' => "write `:` between a feature and its value",
        ';' => "write `,` between links",
        '.' => "write a range with two dots: type{lowest..highest}",
        '\'' => "write a name in quotation marks as in `\"ACE\"`",
        _ => "the notation is type{lowest..highest}[feature: value, ..]; `#` begins a comment",
    };
    Fault::new(at, format!("`{character}` has no meaning here"), advice)
}

fn misnamed(at: usize, word: &str) -> Fault {
    Fault::new(
        at,
        format!("`{}` is neither a number nor a name", cut(word)),
        "a name begins with a small letter, and a number has digits alone",
    )
}
