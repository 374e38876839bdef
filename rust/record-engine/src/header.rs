//! Tests that the header for C and the documentation of this package agree: in the constants,
//! in the words about each refusal, and in the refusals and the stack of each call. The tests
//! read both as text.

use crate::code::{Answer, answer};
use crate::{Order, Reason, Refusal};
use std::collections::{BTreeMap, BTreeSet};
use std::fs;
use std::path::Path;

/// The header.
const HEADER: &str = include_str!("../../../include/record_engine.h");

/// What the comment of a call states.
#[derive(Debug, PartialEq, Eq)]
struct Comment {
    /// The refusals, in the order of the checks.
    refusals: Vec<u8>,
    /// The stack that the call takes, in KiB.
    stack: usize,
}

#[test]
fn the_constants_are_those_of_the_header() {
    let constants = constants();
    let number = |name: &str| constants[name];
    let answers = [
        ("RECORD_SAME", Answer::Order(Order::Same)),
        ("RECORD_UNDER", Answer::Order(Order::Under)),
        ("RECORD_ABOVE", Answer::Order(Order::Above)),
        ("RECORD_NEITHER", Answer::Order(Order::Neither)),
        ("RECORD_END", Answer::End),
    ];
    for (name, expected) in answers {
        assert_eq!(answer(number(name)), expected, "{name}");
    }
    let reasons = [
        ("RECORD_REASON_BARE", Reason::Bare),
        ("RECORD_REASON_GROUPS", Reason::Groups),
        ("RECORD_REASON_WANTED", Reason::Wanted),
    ];
    for (name, reason) in reasons {
        assert_eq!(Reason::try_from(number(name) as u8), Ok(reason), "{name}");
    }
    let numbers = [
        ("RECORD_VERSION", crate::VERSION as usize),
        ("RECORD_STACK", crate::STACK),
        ("RECORD_LONGEST", crate::LONGEST_RECORD),
        ("RECORD_GATHERING", crate::GATHERING_LENGTH),
        ("RECORD_STORE", crate::STORE_LENGTH),
        ("RECORD_VERSIONS", crate::VERSIONS),
        ("RECORD_FEATURES", crate::FEATURES),
        ("RECORD_MOST_LINKS", crate::MOST_LINKS),
        ("RECORD_MOST_NODES", crate::MOST_NODES),
        ("RECORD_HOUSE_TYPES", crate::HOUSE_TYPES),
        ("RECORD_HOUSE_TABLE", crate::HOUSE_TABLE_LENGTH),
        ("RECORD_LONGEST_LISTED", crate::LONGEST_LISTED),
    ];
    for (name, expected) in numbers {
        assert_eq!(number(name), expected as u64, "{name}");
    }
    let compared = (answers.map(|(name, _)| name).into_iter())
        .chain(reasons.map(|(name, _)| name))
        .chain(numbers.map(|(name, _)| name));
    let compared: BTreeSet<&str> = compared.collect();
    let stated: BTreeSet<&str> = constants.into_keys().collect();
    assert_eq!(stated, compared, "a constant of the header is not compared");
}

#[test]
fn the_version_is_that_of_the_header() {
    let stated = format!("#define RECORD_VERSION_TEXT \"{}\"", crate::VERSION_TEXT);
    assert!(HEADER.lines().any(|line| line == stated), "{stated}");
    let numbers = crate::VERSION_TEXT.split('.');
    let numbers: Vec<u64> = numbers.map(|n| n.parse().expect("a number")).collect();
    let [first, second, third] = numbers[..] else {
        panic!("{} has three numbers", crate::VERSION_TEXT);
    };
    let number = 1_000_000 * first + 1_000 * second + third;
    assert_eq!(number, crate::VERSION);
}

#[test]
fn the_sentences_are_those_of_the_header() {
    let mut sentences = BTreeMap::new();
    for line in HEADER.lines() {
        if let Some((number, rest)) = line
            .strip_prefix("    case ")
            .and_then(|line| line.split_once(": return \""))
        {
            let text = rest
                .strip_suffix("\";")
                .expect("the sentence ends the line");
            sentences.insert(number.parse().expect("a number"), text);
        }
    }
    let known = Refusal::ALL
        .iter()
        .map(|known| (known.number(), known.text()));
    assert_eq!(sentences, known.collect::<BTreeMap<u8, &str>>());
}

#[test]
fn a_refusal_is_explained_as_in_the_header() {
    let documented = refusals(include_str!("refusal.rs"), "    /// ", ": ");
    let all: BTreeSet<u8> = Refusal::ALL.iter().map(|known| known.number()).collect();
    assert_eq!(documented.keys().copied().collect::<BTreeSet<u8>>(), all);
    let stated = refusals(HEADER, " * ", "  ");
    for number in &all {
        assert_eq!(
            stated.get(number),
            documented.get(number),
            "refusal {number}"
        );
    }
    assert_eq!(stated.len(), all.len(), "{stated:?}");
}

#[test]
fn a_call_has_the_refusals_and_the_stack_of_the_header() {
    let stated = header_calls();
    assert!(stated.len() >= 23, "{stated:?}");
    let documented = wrapper_calls();
    for (name, comment) in &stated {
        assert_eq!(documented.get(name), Some(comment), "{name}");
        let most = 1024 * comment.stack;
        assert!(comment.stack > 0 && most <= crate::STACK, "{name}");
    }
}

/// The constants of the header that are numbers.
fn constants() -> BTreeMap<&'static str, u64> {
    let mut constants = BTreeMap::new();
    for line in HEADER.lines() {
        let definition = line.strip_prefix("#define ");
        let Some((name, value)) = definition.and_then(|rest| rest.split_once(' ')) else {
            continue;
        };
        let takes_arguments = name.contains('(');
        let is_text = value.starts_with('"') || name == "RECORD_INLINE";
        if !takes_arguments && !is_text {
            constants.insert(name, Expression::value(value, &constants));
        }
    }
    constants
}

/// An expression of C, and the part of it that is still to be read.
struct Expression<'a> {
    rest: &'a str,
    known: &'a BTreeMap<&'static str, u64>,
}

impl Expression<'_> {
    fn value(text: &str, known: &BTreeMap<&'static str, u64>) -> u64 {
        let mut expression = Expression { rest: text, known };
        let value = expression.shift();
        assert_eq!(expression.rest, "", "the rest of {text}");
        value
    }

    /// Takes a sign or a word if it comes next.
    fn takes(&mut self, word: &str) -> bool {
        let rest = self.rest.trim_start().strip_prefix(word);
        self.rest = rest.unwrap_or(self.rest);
        rest.is_some()
    }

    fn shift(&mut self) -> u64 {
        let mut value = self.sum();
        while self.takes("<<") {
            value <<= self.sum();
        }
        value
    }

    fn sum(&mut self) -> u64 {
        let mut value = self.product();
        while self.takes("+") {
            value += self.product();
        }
        value
    }

    fn product(&mut self) -> u64 {
        let mut value = self.atom();
        while self.takes("*") {
            value *= self.atom();
        }
        value
    }

    fn atom(&mut self) -> u64 {
        if self.takes("UINT64_C(") || self.takes("(") {
            let value = self.shift();
            assert!(self.takes(")"), "no ) before {}", self.rest);
            return value;
        }
        let rest = self.rest.trim_start();
        let end = rest.find(|c: char| !c.is_ascii_alphanumeric() && c != '_');
        let (word, rest) = rest.split_at(end.unwrap_or(rest.len()));
        self.rest = rest;
        match self.known.get(word) {
            Some(&value) => value,
            None => word
                .parse()
                .unwrap_or_else(|_| panic!("{word} is no number")),
        }
    }
}

/// The words behind each number in a list of refusals. The lines of the list begin with
/// `prefix`. A number stands first in its line, and `parts` stands between the number and the
/// words. A line without a number continues the words of the last number.
fn refusals(text: &str, prefix: &str, parts: &str) -> BTreeMap<u8, String> {
    let mut explained: BTreeMap<u8, String> = BTreeMap::new();
    let mut current = None;
    for line in text.lines() {
        let line = line.strip_prefix(prefix).unwrap_or("").trim();
        let (number, words) = line.split_once(parts).unwrap_or((line, ""));
        match number.parse() {
            Ok(number) => {
                explained.insert(number, words.to_string());
                current = Some(number);
            }
            Err(_) if line.is_empty() => current = None,
            Err(_) => {
                let last = current.and_then(|number| explained.get_mut(&number));
                if let Some(last) = last {
                    *last = format!("{last} {line}");
                }
            }
        }
    }
    for words in explained.values_mut() {
        *words = words.trim_end_matches('.').replace('−', "-");
    }
    explained
}

/// What the comments of the header state about each call.
fn header_calls() -> BTreeMap<String, Comment> {
    let mut calls = BTreeMap::new();
    let parts: Vec<&str> = HEADER.split("uint64_t record_").collect();
    for pair in parts.windows(2) {
        let (_, comment) = pair[0].rsplit_once("/*").expect("a comment before a call");
        let (name, _) = pair[1].split_once('(').expect("parameters");
        let comment = plain(&comment.replace("\n *", " "));
        let (_, refused) = comment.split_once("efuses by ").expect("refusals");
        calls.insert(name.to_string(), told(&comment, first_clause(refused)));
    }
    calls
}

/// What the documentation of this package states about each function on lent buffers. Only
/// these functions begin a line and have a documentation with "Refused by".
fn wrapper_calls() -> BTreeMap<String, Comment> {
    let mut calls = BTreeMap::new();
    let source = Path::new(env!("CARGO_MANIFEST_DIR")).join("src");
    for file in fs::read_dir(source).expect("the source") {
        let text = fs::read_to_string(file.expect("a file").path()).expect("a text");
        let mut comment = String::new();
        for line in text.lines() {
            if let Some(words) = line.strip_prefix("///") {
                comment = comment + words + " ";
                continue;
            }
            let comment = plain(&std::mem::take(&mut comment));
            let function = line.strip_prefix("pub fn ");
            let refused = comment.split_once("Refused by ");
            if let (Some(function), Some((_, refused))) = (function, refused) {
                let (name, _) = function.split_once('(').expect("parameters");
                // The numbers stand in brackets, each behind a link.
                let brackets = first_clause(refused).split('(').skip(1);
                let numbers = brackets.filter_map(|part| part.split(')').next());
                let numbers: Vec<&str> = numbers.collect();
                calls.insert(name.to_string(), told(&comment, &numbers.join(" ")));
            }
        }
    }
    calls
}

/// A text with one space between its words.
fn plain(text: &str) -> String {
    text.split_whitespace().collect::<Vec<&str>>().join(" ")
}

/// The first sentence, or its part before a semicolon.
fn first_clause(text: &str) -> &str {
    text.split(['.', ';']).next().unwrap_or("")
}

/// The stack that a comment states, and the refusals that a part of the comment names. Two
/// numbers with "to" between them are the ends of a range.
fn told(comment: &str, refused: &str) -> Comment {
    let mut refusals: Vec<u8> = Vec::new();
    let mut before = "";
    for word in refused.split([' ', ',']) {
        if let Ok(number) = word.parse() {
            let ends_range = before == "to";
            let last = refusals.last().filter(|_| ends_range);
            refusals.extend(last.map_or(number, |last| last + 1)..=number);
        }
        before = word;
    }
    let (_, stack) = comment.rsplit_once("Takes ").expect("the stack");
    let (stack, _) = stack.split_once(" KiB of stack").expect("the stack in KiB");
    Comment {
        refusals,
        stack: stack.parse().expect("a number"),
    }
}
