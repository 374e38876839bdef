//! Why a table is refused by 1 to 3: its length, a row or two rows that no order has, or two types
//! without a meet, with their names.

use super::{Cause, Place};
use crate::graph::Graph;
use crate::table::Table;

/// The cause of a refusal of a table, by the number of the refusal.
pub fn cause(number: u8, table: &Table) -> Option<Cause> {
    let (what, advice) = match number {
        1 => size(table),
        2 => order(table)?,
        3 => bounds(table)?,
        _ => return None,
    };
    Some(Cause::new(Place::Whole, what, advice))
}

type Words = (String, String);

fn size(table: &Table) -> Words {
    let advice = match Graph::decode(&table.bytes) {
        Ok(_) => "is this a record? A command's first file is the table",
        Err(_) => "hand in 8 bytes for each type, a table as text, or the word `house`",
    };
    (
        format!(
            "it has {} bytes, and a table has 8 for each of 2 to 64 types",
            table.bytes.len()
        ),
        advice.to_string(),
    )
}

/// The first row that no order has, or two rows that do not fit together.
fn order(table: &Table) -> Option<Words> {
    let n = table.n;
    let name = |number: usize| table.type_shown(number as u8);
    let below = |a: usize, b: usize| table.row(b) >> a & 1 == 1;
    let rows = |what: String, advice: &str| Some((what, advice.to_string()));
    for i in 0..n {
        let beyond = table.row(i).checked_shr(n as u32).unwrap_or(0);
        if beyond != 0 {
            let bit = n as u32 + beyond.trailing_zeros();
            let what = format!("row {i} has bit {bit}, and the types are 0 to {}", n - 1);
            return rows(what, "clear the bit, or add the rows of more types");
        }
        if !below(i, i) {
            let what = format!("row {i} does not have bit {i}");
            return rows(what, "set the bit: every type is below or equal to itself");
        }
        if !below(0, i) {
            let what = format!("row {i} does not have bit 0");
            return rows(what, "set the bit: type 0 is the least");
        }
        if !below(i, n - 1) {
            let what = format!("row {}, the last, does not have bit {i}", n - 1);
            return rows(what, "set the bit: the last type is the greatest");
        }
    }
    for a in 0..n {
        for b in (0..n).filter(|&b| b != a && below(a, b)) {
            if below(b, a) {
                let what = format!("{} and {} are each below the other", name(a), name(b));
                return rows(what, "make them one type, or take one way out");
            }
            if let Some(c) = (0..n).find(|&c| below(b, c) && !below(a, c)) {
                let (a, b, c) = (name(a), name(b), name(c));
                let what = format!("{a} is below {b}, {b} is below {c}, and {a} is not below {c}");
                return rows(what, "set the bit that is missing");
            }
        }
    }
    None
}

/// Two types without a meet. Since there is a greatest type, a table in which two types have no join
/// also has two types without a meet.
fn bounds(table: &Table) -> Option<Words> {
    let name = |number: usize| table.type_shown(number as u8);
    let pairs = (0..table.n).flat_map(|a| (0..a).map(move |b| (b, a)));
    for (a, b) in pairs {
        let both = table.row(a) & table.row(b);
        if table.greatest(both).is_none() {
            // Those that no other one is above.
            let is_highest = |c: usize| {
                both >> c & 1 == 1
                    && !(0..table.n)
                        .any(|d| d != c && both >> d & 1 == 1 && table.row(d) >> c & 1 == 1)
            };
            let highest: Vec<String> = (0..table.n).filter(|&c| is_highest(c)).map(name).collect();
            let (a, b, highest) = (name(a), name(b), super::listed(&highest));
            return Some((
                format!(
                    "{a} and {b} have no meet: {highest} are below both, and none of these is the greatest"
                ),
                format!("add a type below {a} and {b} and above {highest}"),
            ));
        }
    }
    None
}
