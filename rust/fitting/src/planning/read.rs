//! Reads CSV into a planning table. This module refuses only what cannot be handed to the engine: a
//! cell that is no byte, and nodes that are not numbered from 0. It keeps the places of rows and
//! nodes, so that a message can point at what the engine refuses.

use super::csv::{self, Cell, File, Line};
use super::{LINKS, NODES, NodeBytes};
use crate::graph::{Graph, Levels, Link, MOST_NODES, Node};
use crate::source::Fault;
use crate::table::Table;
use record_engine::Row;
use std::collections::BTreeMap;

/// A place in one of the files: which of them, and the byte.
#[derive(Clone, Copy, Debug, PartialEq, Eq)]
pub struct Place {
    file: usize,
    at: usize,
}

/// A planning table that was read from CSV, and where its parts stand there.
#[derive(Clone, Debug)]
pub struct Planning {
    /// The links, in the order of their lines.
    pub rows: Vec<Row>,
    /// For each row the places of its parent, its feature and its target.
    pub row_places: Vec<[Place; 3]>,
    /// The nodes by their numbers.
    pub nodes: Vec<NodeBytes>,
    /// For each node the place of its number.
    pub node_places: Vec<Place>,
    /// The place of the nodes' header.
    pub nodes_header: Place,
    files: Vec<File>,
}

impl Planning {
    /// What is at a place, and what to do about it.
    pub fn message(&self, place: Place, what: &str, advice: &str) -> String {
        let File { name, text } = &self.files[place.file];
        Fault::new(place.at, what, advice).message(name, text)
    }

    /// The line of a place, from 1.
    pub fn line(&self, place: Place) -> usize {
        self.files[place.file].line(place.at)
    }

    /// The graph of the planning table, if its rows are in range and no two rows have one parent and
    /// feature.
    pub fn graph(&self) -> Graph {
        let node = |&[node_type, lowest, highest]: &NodeBytes| Node {
            node_type,
            levels: Levels { lowest, highest },
            links: Vec::new(),
        };
        let mut nodes: Vec<Node> = self.nodes.iter().map(node).collect();
        let mut rows = self.rows.clone();
        rows.sort();
        for row in rows {
            nodes[usize::from(row.parent)].links.push(Link {
                feature: row.feature,
                target: usize::from(row.target),
            });
        }
        Graph { nodes }
    }
}

/// The planning table of one or more files, with the names of a table, or a message that tells what
/// is wrong.
pub fn read(table: &Table, files: Vec<File>) -> Result<Planning, String> {
    let mut reader = Reader {
        table,
        files: &files,
        file: 0,
        links_header: None,
        rows: Vec::new(),
        row_places: Vec::new(),
        nodes_header: None,
        nodes: BTreeMap::new(),
    };
    let nodes_header = reader.read().map_err(|fault| {
        let File { name, text } = &files[reader.file];
        fault.message(name, text)
    })?;
    let (nodes, node_places) = reader.nodes.into_values().unzip();
    Ok(Planning {
        rows: reader.rows,
        row_places: reader.row_places,
        nodes,
        node_places,
        nodes_header,
        files,
    })
}

/// What the lines below a header tell.
#[derive(Clone, Copy)]
enum Part {
    Links,
    /// Nodes, with this number of columns.
    Nodes(usize),
}

struct Reader<'a> {
    table: &'a Table,
    files: &'a [File],
    /// The file that is read.
    file: usize,
    links_header: Option<Place>,
    rows: Vec<Row>,
    row_places: Vec<[Place; 3]>,
    nodes_header: Option<Place>,
    /// By their numbers.
    nodes: BTreeMap<u8, (NodeBytes, Place)>,
}

impl Reader<'_> {
    /// Reads the files, and gives the place of the nodes' header. A fault is one of the file
    /// that is read.
    fn read(&mut self) -> Result<Place, Fault> {
        for (number, file) in self.files.iter().enumerate() {
            self.file = number;
            self.lines(&file.text)?;
        }
        let missing = |what: &str, header: &[&str]| {
            let text = &self.files[self.file].text;
            let header = header.join(",");
            Fault::new(
                text.trim_end().len(),
                format!("expected {what}, found the end of the text"),
                format!("write them below a line `{header}`, here or in a further file"),
            )
        };
        if self.links_header.is_none() {
            return Err(missing("links", &LINKS));
        }
        let header = self.nodes_header.ok_or_else(|| missing("nodes", &NODES))?;
        self.file = header.file;
        self.gap()?;
        Ok(header)
    }

    /// Reads the lines of a file: headers, and rows below them.
    fn lines(&mut self, text: &str) -> Result<(), Fault> {
        let mut part = None;
        for line in csv::lines(text)? {
            part = match (self.header(&line)?, part) {
                (Some(part), _) => Some(part),
                (None, Some(part)) => {
                    self.row(part, &line)?;
                    Some(part)
                }
                (None, None) => return Err(no_header(line.cell(0))),
            };
        }
        match part {
            Some(_) => Ok(()),
            None => Err(no_header(Cell {
                text: String::new(),
                at: 0,
            })),
        }
    }

    /// What stands below a line, if it is a header.
    fn header(&mut self, line: &Line) -> Result<Option<Part>, Fault> {
        let is = |column: usize, name: &str| line.cell(column).text.eq_ignore_ascii_case(name);
        let (part, columns): (_, &[&str]) = match line.cells.len() {
            _ if is(0, LINKS[0]) => (Part::Links, &LINKS),
            2 if is(0, NODES[0]) => (Part::Nodes(2), &NODES[..2]),
            _ if is(0, NODES[0]) => (Part::Nodes(4), &NODES),
            _ => return Ok(None),
        };
        let advice = match part {
            Part::Links => "the header of links is `parent,feature,target`",
            Part::Nodes(_) => "the header of nodes is `node,type,lowest,highest` or `node,type`",
        };
        if let Some(wrong) = (0..columns.len()).find(|&column| !is(column, columns[column])) {
            let (wanted, cell) = (columns[wrong], line.cell(wrong));
            let what = format!("expected `{wanted}`, found {}", cell.shown());
            return Err(Fault::new(cell.at, what, advice));
        }
        fits(line, columns.len(), advice)?;
        let place = self.place(&line.cells[0]);
        let (noun, header) = match part {
            Part::Links => ("links", &mut self.links_header),
            Part::Nodes(_) => ("nodes", &mut self.nodes_header),
        };
        if let Some(before) = header.replace(place) {
            let File { name, .. } = &self.files[before.file];
            let line = self.files[before.file].line(before.at);
            return Err(Fault::new(
                place.at,
                format!("{noun} stand below line {line} of {name} already"),
                format!("put all {noun} below one header"),
            ));
        }
        Ok(Some(part))
    }

    fn row(&mut self, part: Part, line: &Line) -> Result<(), Fault> {
        let columns = match part {
            Part::Links => &LINKS[..],
            Part::Nodes(columns) => &NODES[..columns],
        };
        let header = columns.join(", ");
        let advice = format!("a row has no more cells than its header: {header}");
        fits(line, columns.len(), &advice)?;
        match part {
            Part::Links => self.link(line),
            Part::Nodes(_) => self.node(line),
        }
    }

    fn link(&mut self, line: &Line) -> Result<(), Fault> {
        let cells = [0, 1, 2].map(|column| line.cell(column));
        let [parent, feature, target] = &cells;
        self.rows.push(Row {
            parent: node_number(parent, "a parent")?,
            feature: self.feature(feature)?,
            target: node_number(target, "a target")?,
        });
        self.row_places.push(cells.map(|cell| self.place(&cell)));
        Ok(())
    }

    fn node(&mut self, line: &Line) -> Result<(), Fault> {
        let cell = line.cell(0);
        let number = node_number(&cell, "a node")?;
        let bytes = [
            self.node_type(&line.cell(1))?,
            level(&line.cell(2), Levels::FULL.lowest)?,
            level(&line.cell(3), Levels::FULL.highest)?,
        ];
        let place = self.place(&cell);
        match self.nodes.insert(number, (bytes, place)) {
            None => Ok(()),
            Some((_, before)) => {
                let line = self.files[before.file].line(before.at);
                Err(Fault::new(
                    cell.at,
                    format!("node {number} stands in line {line} already"),
                    "give each node a number of its own",
                ))
            }
        }
    }

    /// Nodes are numbered from 0 without a gap.
    fn gap(&self) -> Result<(), Fault> {
        let count = self.nodes.len();
        let numbered = (0..).zip(&self.nodes);
        let mut behind = numbered.filter(|&(wanted, (&number, _))| wanted != u32::from(number));
        match behind.next() {
            None => Ok(()),
            Some((missing, (number, (_, place)))) => {
                let last = count - 1;
                Err(Fault::new(
                    place.at,
                    format!("here is node {number}, and node {missing} is missing"),
                    format!("number these {count} nodes from 0, the root, to {last}"),
                ))
            }
        }
    }

    fn feature(&self, cell: &Cell) -> Result<u8, Fault> {
        if !is_name(cell) {
            let advice = "a feature is 0 to 63, or a name of the table";
            return number(cell, "a feature", advice);
        }
        let found = self.table.feature_named(&cell.text);
        found.ok_or_else(|| {
            let what = format!("the table has no feature {}", cell.shown());
            Fault::new(cell.at, what, self.table.features_advice(&cell.text))
        })
    }

    fn node_type(&self, cell: &Cell) -> Result<u8, Fault> {
        if !is_name(cell) {
            let top = self.table.top();
            let advice = format!("a type is 1 to {top}, or a name of the table");
            return number(cell, "a type", &advice);
        }
        let found = self.table.type_named(&cell.text);
        found.ok_or_else(|| {
            let what = format!("the table has no type {}", cell.shown());
            Fault::new(cell.at, what, self.table.types_advice(&cell.text))
        })
    }

    fn place(&self, cell: &Cell) -> Place {
        Place {
            file: self.file,
            at: cell.at,
        }
    }
}

fn no_header(found: Cell) -> Fault {
    Fault::new(
        found.at,
        format!("expected a header line, found {}", found.shown()),
        "nodes stand below `node,type,lowest,highest`, links below `parent,feature,target`",
    )
}

/// Checks that a line has no cell beyond its columns.
fn fits(line: &Line, columns: usize, advice: &str) -> Result<(), Fault> {
    match line.cells.get(columns) {
        None => Ok(()),
        Some(extra) => {
            let what = format!("{} is one cell too many", extra.shown());
            Err(Fault::new(extra.at, what, advice))
        }
    }
}

/// Whether a cell has to be looked up by name.
fn is_name(cell: &Cell) -> bool {
    cell.text.chars().any(|c| !c.is_ascii_digit())
}

/// A cell that has a number alone.
fn number(cell: &Cell, what: &str, advice: &str) -> Result<u8, Fault> {
    if cell.text.is_empty() || is_name(cell) {
        let what = format!("expected {what}, found {}", cell.shown());
        return Err(Fault::new(cell.at, what, advice));
    }
    let number = cell.text.parse();
    number.map_err(|_| {
        let what = format!("{} is too large for {what}", cell.shown());
        Fault::new(cell.at, what, advice)
    })
}

fn node_number(cell: &Cell, what: &str) -> Result<u8, Fault> {
    let advice = format!("nodes go by number, 0 to {}", MOST_NODES - 1);
    number(cell, what, &advice)
}

/// A level, or the one that an empty cell stands for.
fn level(cell: &Cell, implied: u8) -> Result<u8, Fault> {
    match cell.text.is_empty() {
        true => Ok(implied),
        false => number(cell, "a level", "a level is 0 to 255"),
    }
}
