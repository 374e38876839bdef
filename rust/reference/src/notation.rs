//! Reads document 01's notation for graphs, `type[feature: value]`, in which equal capitals
//! are one node. A range `{lowest..highest}` may follow a type. Also reads hexadecimal digits
//! into bytes. The functions are for tests: they panic if the text does not have this form.

use crate::graph::{Feature, Graph, Node};
use crate::label::{Label, Range};
use crate::table::Type;
use std::collections::BTreeMap;

/// The graph of a text such as `top[0: X a{10..200}, 1: X]`. The types are `a` (1), `b` (2),
/// `top` (the given type) or a number. A type without a range has the full range.
pub fn graph(top: Type, text: &str) -> Graph {
    let mut parser = Parser {
        top,
        tokens: tokens(text),
        next: 0,
        nodes: Vec::new(),
        shared: BTreeMap::new(),
    };
    parser.value();
    assert_eq!(parser.next, parser.tokens.len(), "text left over: {text}");
    Graph {
        nodes: parser.nodes,
    }
}

/// The bytes of hexadecimal digits; spaces do not count.
pub fn bytes(digits: &str) -> Vec<u8> {
    let digits: Vec<u8> = digits
        .chars()
        .filter(|digit| !digit.is_whitespace())
        .map(|digit| digit.to_digit(16).expect("a hexadecimal digit") as u8)
        .collect();
    assert!(digits.len().is_multiple_of(2), "half a byte left over");
    digits
        .chunks(2)
        .map(|pair| 16 * pair[0] + pair[1])
        .collect()
}

/// The words and marks of a text.
fn tokens(text: &str) -> Vec<String> {
    let mut spaced = String::new();
    for character in text.chars() {
        if "[]{}:,".contains(character) {
            spaced.extend([' ', character, ' ']);
        } else {
            spaced.push(character);
        }
    }
    spaced.split_whitespace().map(str::to_string).collect()
}

struct Parser {
    top: Type,
    tokens: Vec<String>,
    next: usize,
    nodes: Vec<Node>,
    shared: BTreeMap<String, usize>,
}

impl Parser {
    /// A value: a capital, a label, or both, then its links. A capital alone
    /// stands for the node it named before.
    fn value(&mut self) -> usize {
        let capital = self.take_if(|token| token.starts_with(|c: char| c.is_ascii_uppercase()));
        if let Some(node) = capital.as_ref().and_then(|name| self.shared.get(name)) {
            return *node;
        }
        let label = self.label();
        let node = self.nodes.len();
        self.nodes.push(Node::new(label, []));
        if let Some(name) = capital {
            self.shared.insert(name, node);
        }
        if self.take_if(|token| token == "[").is_some() {
            loop {
                let feature: Feature = self.take().parse().expect("a feature");
                assert_eq!(self.take(), ":");
                let target = self.value();
                self.nodes[node].links.insert(feature, target);
                if self.take_if(|token| token == ",").is_none() {
                    break;
                }
            }
            assert_eq!(self.take(), "]");
        }
        node
    }

    /// A type, and its range where a brace opens.
    fn label(&mut self) -> Label {
        let node_type = match self.take().as_str() {
            "top" => self.top,
            "a" => 1,
            "b" => 2,
            number => number.parse().expect("a type"),
        };
        if self.take_if(|token| token == "{").is_none() {
            return Label::from(node_type);
        }
        let levels = self.take();
        let (lowest, highest) = levels.split_once("..").expect("lowest..highest");
        assert_eq!(self.take(), "}");
        Label {
            node_type,
            range: Range {
                lowest: lowest.parse().expect("a level"),
                highest: highest.parse().expect("a level"),
            },
        }
    }

    fn take(&mut self) -> String {
        self.take_if(|_| true).expect("more text")
    }

    fn take_if(&mut self, test: impl Fn(&str) -> bool) -> Option<String> {
        let token = self.tokens.get(self.next)?;
        if !test(token) {
            return None;
        }
        self.next += 1;
        Some(token.clone())
    }
}
