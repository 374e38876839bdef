//! Makes the reading order (Paper 10) from the features that `--by` names.

use crate::names::cut;
use crate::table::Table;
use record_engine::FEATURES;

/// The reading order: first the features in the text, then the others by number. In the text,
/// features stand by name or number, with commas between them. A name may stand in quotation marks.
/// The error tells what is wrong and what to do.
pub fn order(table: &Table, named: &str) -> Result<Vec<u8>, String> {
    let mut list = Vec::new();
    for word in words(named) {
        let feature = match word.parse().ok().filter(|&number| number < FEATURES as u8) {
            Some(number) => number,
            None => table.feature_named(word).ok_or_else(|| {
                let advice = table.features_advice(word);
                format!("there is no feature `{}`; {advice}", cut(word))
            })?,
        };
        if list.contains(&feature) {
            return Err(format!("`{}` is named twice; leave one out", cut(word)));
        }
        list.push(feature);
    }
    let others: Vec<u8> = (0..FEATURES as u8)
        .filter(|feature| !list.contains(feature))
        .collect();
    Ok([list, others].concat())
}

/// The words between commas. A comma in quotation marks separates nothing.
fn words(named: &str) -> Vec<&str> {
    let mut quoted = false;
    let parts = |c: char| {
        quoted ^= c == '"';
        c == ',' && !quoted
    };
    named.split(parts).map(bare).collect()
}

/// A word without quotation marks around it.
fn bare(word: &str) -> &str {
    let bare = word
        .strip_prefix('"')
        .and_then(|rest| rest.strip_suffix('"'));
    bare.unwrap_or(word)
}
