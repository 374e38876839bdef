//! Reads a text into a graph. This module refuses only what no record can hold: too many nodes, or
//! numbers that do not fit. It keeps the places of nodes and links, so that a message can point at
//! what the engine refuses.

use super::tokens::{Kind, Token, tokens};
use crate::graph::{Graph, Levels, Link, MOST_NODES, Node};
use crate::names::{cut, shown};
use crate::source::{Fault, line_and_column};
use crate::table::Table;
use std::collections::BTreeMap;

/// A graph that was read from text, and where its parts stand there.
#[derive(Clone, Debug)]
pub struct Text {
    pub graph: Graph,
    /// For each node the byte at which its type stands.
    pub nodes: Vec<usize>,
    /// For each parent and feature the byte at which the link stands.
    pub links: BTreeMap<(usize, u8), usize>,
}

/// The graph of a text, with the names of a table. The root is node 0.
pub fn read(table: &Table, text: &str) -> Result<Text, Fault> {
    let mut reader = Reader {
        table,
        text,
        tokens: tokens(text)?,
        next: 0,
        result: Text {
            graph: Graph::default(),
            nodes: Vec::new(),
            links: BTreeMap::new(),
        },
        capitals: BTreeMap::new(),
    };
    reader.value()?;
    reader.end()?;
    Ok(reader.result)
}

/// A capital: its node, where it stands first, and where its type does.
struct Capital {
    node: usize,
    first: usize,
    described: Option<usize>,
}

struct Reader<'a> {
    table: &'a Table,
    text: &'a str,
    tokens: Vec<Token<'a>>,
    next: usize,
    result: Text,
    capitals: BTreeMap<&'a str, Capital>,
}

const VALUE: &str = "a value is a type (`a`), a capital (`X`), or both (`X a`), then its links";

impl<'a> Reader<'a> {
    fn peek(&self) -> Token<'a> {
        self.tokens[self.next]
    }

    /// Takes the next token. The end is not taken.
    fn take(&mut self) -> Token<'a> {
        let token = self.peek();
        self.next = (self.next + 1).min(self.tokens.len() - 1);
        token
    }

    fn take_mark(&mut self, mark: &str) -> bool {
        let found = self.peek().is(mark);
        if found {
            self.take();
        }
        found
    }

    /// A value: a type with its links, a capital, or a capital with both. Values are nested at most
    /// as deep as there are nodes.
    fn value(&mut self) -> Result<usize, Fault> {
        let token = self.peek();
        match token.kind {
            Kind::Name | Kind::Number => {
                let node = self.new_node(token.at)?;
                self.describe(node)?;
                Ok(node)
            }
            Kind::Capital => self.capital(),
            Kind::Mark | Kind::End => Err(Fault::new(
                token.at,
                format!("expected a value, found {}", token.shown()),
                VALUE,
            )),
        }
    }

    /// A capital, with the type and links of its node in one of its places.
    fn capital(&mut self) -> Result<usize, Fault> {
        let Token { text: name, at, .. } = self.take();
        let shown = cut(name);
        let (node, described) = match self.capitals.get(name) {
            Some(capital) => (capital.node, capital.described),
            None => {
                let node = self.new_node(at)?;
                let capital = Capital {
                    node,
                    first: at,
                    described: None,
                };
                self.capitals.insert(name, capital);
                (node, None)
            }
        };
        let token = self.peek();
        match token.kind {
            Kind::Name | Kind::Number => {
                if let Some(before) = described {
                    let (line, column) = line_and_column(self.text, before);
                    return Err(Fault::new(
                        token.at,
                        format!("`{shown}` has a type already, in line {line}, column {column}"),
                        format!("write `{shown}` alone here: equal capitals are one node"),
                    ));
                }
                let capital = self.capitals.get_mut(name).expect("it stands above");
                capital.described = Some(token.at);
                self.result.nodes[node] = token.at;
                self.describe(node)?;
            }
            _ if token.is("[") || token.is("{") => {
                return Err(Fault::new(
                    token.at,
                    format!("`{shown}` has no type before `{}`", token.text),
                    format!("write its type: `{shown} {}{}`", self.top(), token.text),
                ));
            }
            _ => {}
        }
        Ok(node)
    }

    /// The type, the levels and the links of a node.
    fn describe(&mut self, node: usize) -> Result<(), Fault> {
        let node_type = self.node_type()?;
        let levels = self.levels()?;
        let described = &mut self.result.graph.nodes[node];
        (described.node_type, described.levels) = (node_type, levels);
        if self.peek().is("[") {
            self.links(node)?;
        }
        Ok(())
    }

    fn node_type(&mut self) -> Result<u8, Fault> {
        let token = self.take();
        if token.kind == Kind::Number {
            return self.number(token, 127, "a type's number");
        }
        let found = self.table.type_named(token.text);
        found.ok_or_else(|| {
            Fault::new(
                token.at,
                format!("the table has no type {}", token.shown()),
                self.table.types_advice(token.text),
            )
        })
    }

    fn levels(&mut self) -> Result<Levels, Fault> {
        if !self.take_mark("{") {
            return Ok(Levels::FULL);
        }
        let lowest = self.level()?;
        if self.take_mark("}") {
            let highest = lowest;
            return Ok(Levels { lowest, highest });
        }
        self.expect(
            "..",
            "write a range as {lowest..highest}, one level as {level}",
        )?;
        let highest = self.level()?;
        self.expect("}", &format!("write {{{lowest}..{highest}}}"))?;
        Ok(Levels { lowest, highest })
    }

    fn level(&mut self) -> Result<u8, Fault> {
        let token = self.take();
        if token.kind == Kind::Number {
            return self.number(token, 255, "a level");
        }
        Err(Fault::new(
            token.at,
            format!("expected a level, found {}", token.shown()),
            "a level is a number from 0 to 255: {lowest..highest}, or {level}",
        ))
    }

    /// The links of a node, in brackets. A comma may stand behind the last.
    fn links(&mut self, node: usize) -> Result<(), Fault> {
        let open = self.take();
        while !self.take_mark("]") {
            self.link(node, open)?;
            let token = self.peek();
            if !self.take_mark(",") && !token.is("]") {
                return Err(match token.kind {
                    Kind::End => unclosed(open),
                    _ => Fault::new(
                        token.at,
                        format!("expected `,` or `]`, found {}", token.shown()),
                        "write `,` before a further link, or `]` behind the last",
                    ),
                });
            }
        }
        Ok(())
    }

    fn link(&mut self, node: usize, open: Token<'_>) -> Result<(), Fault> {
        let token = self.take();
        let feature = match token.kind {
            Kind::Number => self.number(token, 63, "a feature's number")?,
            Kind::Name => self.table.feature_named(token.text).ok_or_else(|| {
                Fault::new(
                    token.at,
                    format!("the table has no feature {}", token.shown()),
                    self.table.features_advice(token.text),
                )
            })?,
            Kind::End => return Err(unclosed(open)),
            Kind::Capital | Kind::Mark => {
                return Err(Fault::new(
                    token.at,
                    format!("expected a feature, found {}", token.shown()),
                    "a link is `feature: value`, and a feature is a number from 0 to 63 or a name",
                ));
            }
        };
        if let Some(&before) = self.result.links.get(&(node, feature)) {
            let (line, column) = line_and_column(self.text, before);
            return Err(Fault::new(
                token.at,
                format!(
                    "this node has the feature {} already, in line {line}, column {column}",
                    token.shown()
                ),
                "leave one of the two out: a node has one link for a feature",
            ));
        }
        self.result.links.insert((node, feature), token.at);
        self.expect(":", &format!("write `{}: value`", cut(token.text)))?;
        let target = self.value()?;
        let links = &mut self.result.graph.nodes[node].links;
        let place = links.partition_point(|link| link.feature < feature);
        links.insert(place, Link { feature, target });
        Ok(())
    }

    fn expect(&mut self, mark: &str, advice: &str) -> Result<(), Fault> {
        let token = self.peek();
        if self.take_mark(mark) {
            return Ok(());
        }
        let what = format!("expected `{mark}`, found {}", token.shown());
        Err(Fault::new(token.at, what, advice))
    }

    fn number(&self, token: Token<'_>, most: u8, what: &str) -> Result<u8, Fault> {
        let number = token.text.parse().ok().filter(|&number| number <= most);
        number.ok_or_else(|| {
            Fault::new(
                token.at,
                format!("{} is too large for {what}", token.shown()),
                format!("{what} is 0 to {most}"),
            )
        })
    }

    fn new_node(&mut self, at: usize) -> Result<usize, Fault> {
        let number = self.result.graph.nodes.len();
        if number == MOST_NODES {
            return Err(Fault::new(
                at,
                format!("here begins node {}", MOST_NODES + 1),
                format!("a record has at most {MOST_NODES} nodes: share equal parts by capitals"),
            ));
        }
        self.result.graph.nodes.push(Node {
            node_type: 0,
            levels: Levels::FULL,
            links: Vec::new(),
        });
        self.result.nodes.push(at);
        Ok(number)
    }

    /// Checks that nothing follows the value, and that every capital has a type.
    fn end(&self) -> Result<(), Fault> {
        let token = self.peek();
        if token.kind != Kind::End {
            return Err(Fault::new(
                token.at,
                format!("expected the end of the text, found {}", token.shown()),
                "a text is one value; links of its root stand in one pair of brackets",
            ));
        }
        let bare = self.capitals.iter().filter(|(_, c)| c.described.is_none());
        match bare.min_by_key(|(_, capital)| capital.first) {
            None => Ok(()),
            Some((name, capital)) => Err(Fault::new(
                capital.first,
                format!("`{}` has no type anywhere", cut(name)),
                self.untyped_advice(name),
            )),
        }
    }

    /// What to do about a capital without a type.
    fn untyped_advice(&self, name: &str) -> String {
        match self.table.type_like(name) {
            Some(like) => format!("did you mean the type `{}`? Capitals share", shown(&like)),
            None => format!(
                "write its type in one place: `{} {}`",
                cut(name),
                self.top()
            ),
        }
    }

    /// The name of the type that says nothing.
    fn top(&self) -> String {
        cut(&self.table.type_name(self.table.top()))
    }
}

fn unclosed(open: Token<'_>) -> Fault {
    Fault::new(
        open.at,
        "this `[` is not closed",
        "write `]` behind its last link",
    )
}
