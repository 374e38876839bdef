//! A type table with the names of its types and features. It is made from text (`text`), from bytes,
//! or as the table of the house types. The engine tells whether it is accepted. Orders and meets are
//! computed here only for messages.

mod source;
mod text;
mod unlike;

use crate::checksum::crc32;
use crate::graph::{Levels, Node};
use crate::names::{nearest, shown, written};
use crate::source::Fault;
use record_engine::{FEATURES, HOUSE_TABLE_LENGTH, house_table};

/// There are at most this many types.
pub const MOST_TYPES: usize = 64;

/// A table: the number of types, 8 bytes for each type, and names. A type without a name is shown by
/// its number, except the greatest type, which is then shown as `top`.
#[derive(Clone, Debug, PartialEq, Eq)]
pub struct Table {
    pub n: usize,
    pub bytes: Vec<u8>,
    types: Vec<Option<String>>,
    features: Vec<Option<String>>,
    /// The list of types for features: for each feature the broadest type that may have it. There is
    /// none if every type may have every feature.
    pub list: Option<Vec<u8>>,
}

impl Table {
    /// The table of a text.
    pub fn from_text(text: &str) -> Result<Table, Fault> {
        text::read(text)
    }

    /// The text of an accepted table. It reads as the same table. Types without a name get one.
    pub fn text(&self) -> String {
        text::write(self)
    }

    /// The bytes as a C header; `name` is the table's file.
    pub fn c(&self, name: &str) -> String {
        source::c(self, name)
    }

    /// The bytes as Rust constants; `name` is the table's file.
    pub fn rust(&self, name: &str) -> String {
        source::rust(self, name)
    }

    /// The table of rows of 8 bytes. The engine refuses a length that does not fit.
    pub fn from_bytes(bytes: &[u8]) -> Table {
        let n = bytes.len() / 8;
        let mut types = vec![None; n];
        if let Some(top) = types.last_mut() {
            *top = Some("top".to_string());
        }
        Table {
            n,
            bytes: bytes.to_vec(),
            types,
            features: vec![None; FEATURES],
            list: None,
        }
    }

    /// The table of the house types.
    pub fn house() -> Table {
        let mut bytes = [0; HOUSE_TABLE_LENGTH];
        house_table(&mut bytes).expect("the output has room");
        Table::from_bytes(&bytes)
    }

    /// The greatest type, which says nothing.
    pub fn top(&self) -> u8 {
        (self.n - 1) as u8
    }

    /// Whether a node says nothing except by its links.
    pub fn says_nothing(&self, node: &Node) -> bool {
        node.node_type == self.top() && node.levels == Levels::FULL
    }

    /// The name of a type, or its number.
    pub fn type_name(&self, number: u8) -> String {
        named(&self.types, number, str::to_string)
    }

    /// The name of a feature, or its number.
    pub fn feature_name(&self, number: u8) -> String {
        named(&self.features, number, str::to_string)
    }

    /// A type as text writes it.
    pub fn type_written(&self, number: u8) -> String {
        named(&self.types, number, written)
    }

    /// A feature as text writes it.
    pub fn feature_written(&self, number: u8) -> String {
        named(&self.features, number, written)
    }

    /// A type as a message shows it.
    pub fn type_shown(&self, number: u8) -> String {
        named(&self.types, number, shown)
    }

    /// A feature as a message shows it.
    pub fn feature_shown(&self, number: u8) -> String {
        named(&self.features, number, shown)
    }

    /// The number of the type that has a name.
    pub fn type_named(&self, name: &str) -> Option<u8> {
        number_of(&self.types, name)
    }

    /// The number of the feature that has a name.
    pub fn feature_named(&self, name: &str) -> Option<u8> {
        number_of(&self.features, name)
    }

    /// The name of a type that differs from a word only in capitals.
    pub fn type_like(&self, word: &str) -> Option<String> {
        let (word, mut names) = (word.to_lowercase(), self.types.iter().flatten());
        names.find(|name| name.to_lowercase() == word).cloned()
    }

    /// What to write instead of a name that no type has.
    pub fn types_advice(&self, name: &str) -> String {
        let names: Vec<&str> = self.types.iter().skip(1).flatten().map(|n| &**n).collect();
        let all = format!("types are 1 to {}", self.n - 1);
        match self.feature_named(name) {
            Some(_) => format!("this is a feature; {}", advice(name, &names, &all)),
            None => advice(name, &names, &all),
        }
    }

    /// What to do about a name that no line of the table's text gives to a type.
    fn unnamed_advice(&self, name: &str) -> String {
        match nearest(name, self.types.iter().flatten().map(String::as_str)) {
            Some(near) => format!("did you mean `{}`?", shown(near)),
            None => format!("write a line `type {}`, or correct the name", shown(name)),
        }
    }

    /// What to write instead of a name that no feature has.
    pub fn features_advice(&self, name: &str) -> String {
        let names: Vec<&str> = self.features.iter().flatten().map(|n| &**n).collect();
        let advice = advice(name, &names, "features are 0 to 63");
        match self.type_named(name) {
            Some(_) => format!("this is a type; {advice}"),
            None => advice,
        }
    }

    /// The fingerprint of the table, which a person can compare by eye: the checksum of its bytes
    /// and, if the table has names or a list, the checksum of these.
    pub fn fingerprint(&self) -> String {
        let order = format!("{:08x}", crc32(&self.bytes));
        if self.is_unnamed() {
            return order;
        }
        let names = self.types.iter().chain(&self.features);
        let names = names.map(|name| format!("{}\0", name.as_deref().unwrap_or("")));
        let mut bytes = names.collect::<String>().into_bytes();
        bytes.extend(self.list.iter().flatten());
        format!("{order}-{:08x}", crc32(&bytes))
    }

    /// Whether it has no list, and no names except those that need no line.
    pub fn is_unnamed(&self) -> bool {
        let implied = [(0, "bottom"), (self.n - 1, "top")];
        let is_implied = |(number, name): (usize, &Option<String>)| match name {
            Some(name) => implied.contains(&(number, name)),
            None => true,
        };
        self.types.iter().enumerate().all(is_implied)
            && self.features.iter().all(Option::is_none)
            && self.list.is_none()
    }

    /// How another table differs from this one, if it does: in the number of types, in their order,
    /// or, if both have names, in names or lists.
    pub fn unlike(&self, other: &Table) -> Option<String> {
        unlike::unlike(self, other)
    }

    /// A path from the root as messages show it.
    pub fn path(&self, path: &[u8]) -> String {
        let features: Vec<String> = path.iter().map(|&f| self.feature_shown(f)).collect();
        match path {
            [] => "the root".to_string(),
            _ => format!("path {}", features.join(".")),
        }
    }

    /// The types below or equal to a type, as bits; a type of the table.
    pub fn row(&self, number: usize) -> u64 {
        let row = self.bytes[8 * number..][..8].try_into();
        u64::from_le_bytes(row.expect("8 bytes"))
    }

    /// Whether type `a` is below or equal to type `b`.
    pub fn below(&self, a: u8, b: u8) -> bool {
        self.row(usize::from(b)) >> a & 1 == 1
    }

    /// The types directly below a type of an accepted table, by number.
    pub fn directly_below(&self, number: usize) -> Vec<usize> {
        let others_below = |number: usize| self.row(number) & !(1 << number);
        let is_in = |types: u64| move |&number: &usize| types >> number & 1 == 1;
        let below = others_below(number);
        let between = (0..self.n).filter(is_in(below));
        let further = between.fold(0, |further, other| further | others_below(other));
        (0..self.n).filter(is_in(below & !further)).collect()
    }

    /// The greatest of some types given as bits, if one of them is above all.
    pub fn greatest(&self, types: u64) -> Option<u8> {
        (0..self.n)
            .find(|&c| types >> c & 1 == 1 && types & !self.row(c) == 0)
            .map(|c| c as u8)
    }

    /// The meet of two types of an accepted table.
    pub fn meet(&self, a: u8, b: u8) -> u8 {
        let both = self.row(usize::from(a)) & self.row(usize::from(b));
        self.greatest(both).expect("an accepted table has meets")
    }
}

/// The name that a number has, in some form, or the number.
fn named(names: &[Option<String>], number: u8, form: fn(&str) -> String) -> String {
    match names.get(usize::from(number)) {
        Some(Some(name)) => form(name),
        _ => number.to_string(),
    }
}

fn number_of(names: &[Option<String>], name: &str) -> Option<u8> {
    let place = names
        .iter()
        .position(|known| known.as_deref() == Some(name));
    place.map(|place| place as u8)
}

/// A proposal for a misspelt name: the nearest name, or some of the names, or the numbers that can
/// be used.
fn advice(wrong: &str, names: &[&str], numbers: &str) -> String {
    const LISTED: usize = 12;
    if let Some(name) = nearest(wrong, names.iter().copied()) {
        return format!("did you mean `{}`?", shown(name));
    }
    let listed: Vec<String> = names.iter().take(LISTED).map(|name| shown(name)).collect();
    let listed = listed.join(", ");
    match names.len() {
        0 => format!("the table names none; {numbers}"),
        1..=LISTED => format!("it names {listed}; {numbers}"),
        _ => format!("it names {listed}, ..; {numbers}"),
    }
}
