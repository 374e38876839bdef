//! Draws the types of a table. The greatest type stands at the top, and a line goes from each type
//! to the types directly below it.

use super::{GREY_LINE, GREY_TEXT, HEAD, RIGHTWARD, WIDEST_ROW, label, statement};
use crate::names::cut;
use crate::table::Table;

/// The picture of an accepted table.
pub fn types(table: &Table) -> String {
    let mut dot = String::from(HEAD);
    if is_wide(table) {
        dot += RIGHTWARD;
    }
    dot += "  graph [ranksep=0.4, ordering=out];\n";
    // From above to below, and among equals by number.
    let mut types: Vec<usize> = (0..table.n).collect();
    types.sort_by_key(|&number| std::cmp::Reverse(table.row(number).count_ones()));
    for &number in &types {
        let text = label("label", &cut(&table.type_name(number as u8)), "\\n");
        let looks: &[&str] = match number {
            0 => &[GREY_LINE, GREY_TEXT],
            _ => &[],
        };
        dot += &statement(&format!("t{number}"), &[&[&text[..]], looks].concat());
    }
    for &upper in &types {
        for lower in table.directly_below(upper) {
            let looks: &[&str] = match lower {
                0 => &["dir=none", GREY_LINE],
                // A type stands near those above it, and not near the least.
                _ => &["dir=none, weight=3"],
            };
            dot += &statement(&format!("t{upper} -> t{lower}"), looks);
        }
    }
    dot + "}\n"
}

/// Whether a row of types would be too wide. The row of a type is the length of the longest path
/// down from the greatest type.
fn is_wide(table: &Table) -> bool {
    let mut types: Vec<usize> = (0..table.n).collect();
    types.sort_by_key(|&number| std::cmp::Reverse(table.row(number).count_ones()));
    let mut rows = vec![0; table.n];
    for &upper in &types {
        for lower in table.directly_below(upper) {
            rows[lower] = rows[lower].max(rows[upper] + 1);
        }
    }
    let mut widths = vec![0; table.n];
    for (number, &row) in rows.iter().enumerate() {
        let text = cut(&table.type_name(number as u8)).chars().count();
        widths[row] += (8 * text + 16).max(54) + 22;
    }
    widths.iter().any(|&width| width > WIDEST_ROW)
}
