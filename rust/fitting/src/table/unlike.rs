//! How two tables differ.

use super::Table;
use crate::names::shown;
use record_engine::FEATURES;

/// How the second differs from the first, if it does. A table without names, as one of bytes
/// is, contradicts no names.
pub fn unlike(first: &Table, second: &Table) -> Option<String> {
    if first.n != second.n {
        return Some(format!("there are {} types, not {}", second.n, first.n));
    }
    order(first, second).or_else(|| match first.is_unnamed() || second.is_unnamed() {
        true => None,
        false => names(first, second),
    })
}

/// The first pair of types that is in order in one of the tables alone.
fn order(first: &Table, second: &Table) -> Option<String> {
    let all = 0..first.n as u8;
    let mut pairs = all.clone().flat_map(|a| all.clone().map(move |b| (a, b)));
    let (a, b) = pairs.find(|&(a, b)| first.below(a, b) != second.below(a, b))?;
    let [lower, upper] = [a, b].map(|number| type_of(second, number));
    Some(match second.below(a, b) {
        true => format!("{lower} is below {upper}"),
        false => format!("{lower} is not below {upper}"),
    })
}

/// The first name or list's entry that is another.
fn names(first: &Table, second: &Table) -> Option<String> {
    let name = |name: &Option<String>| name.as_deref().map_or("nothing".to_string(), shown);
    // The names that need no line are known by the numbers of their types.
    let types = 0..first.n;
    let type_name = |table: &Table, number: usize| match (&table.types[number], number) {
        (None, 0) => Some("bottom".to_string()),
        (None, number) if number == table.n - 1 => Some("top".to_string()),
        (name, _) => name.clone(),
    };
    for number in types {
        let [one, other] = [first, second].map(|table| type_name(table, number));
        if one != other {
            let [one, other] = [one, other].map(|stated| name(&stated));
            return Some(format!("type {number} is called {other}, not {one}"));
        }
    }
    for number in 0..FEATURES {
        let [one, other] = [first, second].map(|table| &table.features[number]);
        if one != other {
            let [one, other] = [one, other].map(name);
            return Some(format!("feature {number} is called {other}, not {one}"));
        }
    }
    let broadest = |table: &Table, number: usize| match &table.list {
        Some(list) => list[number],
        None => table.top(),
    };
    for number in 0..FEATURES {
        let [one, other] = [first, second].map(|table| broadest(table, number));
        if one != other {
            let feature = first.feature_shown(number as u8);
            let [one, other] = [one, other].map(|broadest| first.type_shown(broadest));
            return Some(format!("feature {feature} is for {other}, not for {one}"));
        }
    }
    None
}

/// A type by its number and, where it has one, its name.
fn type_of(table: &Table, number: u8) -> String {
    let shown = table.type_shown(number);
    match shown == number.to_string() {
        true => format!("type {number}"),
        false => format!("type {number} ({shown})"),
    }
}

#[cfg(test)]
mod tests {
    use super::*;

    fn table(text: &str) -> Table {
        Table::from_text(text).expect("a table")
    }

    #[test]
    fn the_first_difference_is_told() {
        let own = table("type a\ntype b\nfeature 3 rate\n");
        let told = |text: &str| unlike(&own, &table(text)).unwrap_or_default();
        assert_eq!(told("type a\ntype b\nfeature 3 rate"), "");
        assert_eq!(told("type a"), "there are 3 types, not 4");
        assert_eq!(told("type a : b\ntype b"), "type 1 (a) is below type 2 (b)");
        assert_eq!(told("type a\ntype c"), "type 2 is called c, not b");
        assert_eq!(
            told("greatest all\ntype a\ntype b"),
            "type 3 is called all, not top"
        );
        assert_eq!(
            told("type a\ntype b"),
            "feature 3 is called nothing, not rate"
        );
        let list = "type a\ntype b\nfeature 3 rate : a";
        assert_eq!(told(list), "feature rate is for a, not for top");
        let chain = table("type a : b\ntype b");
        let back = unlike(&chain, &table("type a\ntype b"));
        assert_eq!(back.as_deref(), Some("type 1 (a) is not below type 2 (b)"));
        // Bytes have no names to contradict.
        let bytes = Table::from_bytes(&own.bytes);
        assert_eq!((unlike(&own, &bytes), unlike(&bytes, &own)), (None, None));
        let bytes = Table::from_bytes(&chain.bytes);
        assert_eq!(
            unlike(&own, &bytes).as_deref(),
            Some("type 1 is below type 2")
        );
    }
}
