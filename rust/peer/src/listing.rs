//! All small graphs in the order of their bytes: makes the next listed record from a listed
//! record. Seven numbers describe a listed record. The numbers before a number give the span in
//! which it lies.

use crate::Refusal;
use crate::graph::Graph;
use crate::table::Table;

/// The numbers of a listed record: the number of nodes, then the type and the links of each of
/// three nodes. A node that does not exist has 0 and 0. Links: 0 stands for none; 1, 2 and 3 stand
/// for feature 0, feature 1, and both to one node; 4, which only the root has, stands for feature 0
/// to node 1 and feature 1 to node 2.
type Numbers = [u8; 7];

/// The length of the longest listed record.
const LONGEST: usize = 32;

/// Writes the listed record that follows the given one. If the given record has no bytes, it
/// writes the first listed record. At the end of the list it gives none.
pub fn next(
    n: usize,
    table: &[u8],
    features: usize,
    record: &[u8],
    output: &mut [u8],
) -> Result<Option<usize>, Refusal> {
    Table::open(n, table)?;
    if !record.is_empty() {
        Graph::empty().read(n, record).map_err(Refusal::of)?;
    }
    if !(1..=2).contains(&features) {
        return Err(Refusal::of(23));
    }
    let spans = Spans { n, features };
    let following = if record.is_empty() {
        Some(spans.least_from([1, 0, 0, 0, 0, 0, 0], 1))
    } else {
        let numbers = numbers_of(record);
        if !spans.contain(&numbers) || written(&numbers).bytes() != record {
            return Err(Refusal::of(24));
        }
        spans.raised(numbers)
    };
    let Some(numbers) = following else {
        return Ok(None);
    };
    let written = written(&numbers);
    let output = output.get_mut(..written.length).ok_or(Refusal::of(8))?;
    output.copy_from_slice(written.bytes());
    Ok(Some(written.length))
}

/// The spans of the seven numbers.
struct Spans {
    n: usize,
    features: usize,
}

impl Spans {
    /// The least and the greatest number at a place, given the numbers before it.
    fn at(&self, place: usize, numbers: &Numbers) -> (u8, u8) {
        let &[nodes, _, root, _, middle, ..] = numbers;
        let top = (self.n - 1) as u8;
        // The choices of links to one node.
        let choices = if self.features == 1 { 1 } else { 3 };
        match (place, nodes) {
            (0, _) => (1, 3),
            (1, _) | (3, 2..) | (5, 3) => (1, top),
            (2, 2) => (1, choices),
            (2, 3) => (1, if self.features == 1 { 1 } else { 4 }),
            (4, 3) => (u8::from(root != 4), choices),
            (6, 3) if root == 4 && middle == 0 => (0, 3),
            _ => (0, 0),
        }
    }

    fn contain(&self, numbers: &Numbers) -> bool {
        (0..7).all(|place| {
            let (least, greatest) = self.at(place, numbers);
            (least..=greatest).contains(&numbers[place])
        })
    }

    /// The last number that can be raised is raised, and those behind it take their least.
    fn raised(&self, mut numbers: Numbers) -> Option<Numbers> {
        let mut places = (0..7).rev();
        let place = places.find(|&place| numbers[place] < self.at(place, &numbers).1)?;
        numbers[place] += 1;
        Some(self.least_from(numbers, place + 1))
    }

    fn least_from(&self, mut numbers: Numbers, start: usize) -> Numbers {
        for place in start..7 {
            numbers[place] = self.at(place, &numbers).0;
        }
        numbers
    }
}

/// The numbers that describe a record, if it is a listed record.
fn numbers_of(record: &[u8]) -> Numbers {
    let byte = |at: usize| record.get(at).copied().unwrap_or(0);
    let mut numbers = [byte(0), 0, 0, 0, 0, 0, 0];
    let mut at = 1;
    for node in 0..usize::from(numbers[0].min(3)) {
        let map = byte(at + 1);
        let leads_apart = node == 0 && map == 3 && byte(at + 9) != byte(at + 10);
        numbers[1 + 2 * node] = byte(at);
        numbers[2 + 2 * node] = if leads_apart { 4 } else { map };
        at += 9 + width(map);
    }
    numbers
}

/// How many links a number stands for.
fn width(links: u8) -> usize {
    match links {
        0 => 0,
        1 | 2 => 1,
        _ => 2,
    }
}

/// A listed record.
struct Written {
    all: [u8; LONGEST],
    length: usize,
}

impl Written {
    fn bytes(&self) -> &[u8] {
        &self.all[..self.length]
    }
}

/// The record that numbers describe.
fn written(numbers: &Numbers) -> Written {
    let mut all = [0; LONGEST];
    all[0] = numbers[0];
    let mut at = 1;
    // For each node, the node that it leads to by one or both features.
    let heirs = [1, 2, 1];
    for node in 0..usize::from(numbers[0]) {
        let links = numbers[2 + 2 * node];
        all[at] = numbers[1 + 2 * node];
        all[at + 1] = links.min(3);
        at += 9;
        let targets = match links {
            4 => [1, 2],
            _ => [heirs[node]; 2],
        };
        let width = width(links);
        all[at..at + width].copy_from_slice(&targets[..width]);
        at += width;
    }
    Written { all, length: at }
}
