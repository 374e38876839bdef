//! Reads a table from text, and writes it as text. Each line has one statement:
//!
//! - `type NAME : ABOVE ..`: a type, and the types directly above it;
//! - `least NAME` and `greatest NAME`: the names of the least and the greatest type, if these are
//!   not `bottom` and `top`;
//! - `feature NUMBER NAME : TYPE`: a feature, and the broadest type that may have it, if not every
//!   type may have it;
//! - `house`: the table of the house types, to which `type NAME = NUMBER` gives names.
//!
//! `#` begins a comment.

use super::{MOST_TYPES, Table, number_of};
use crate::names::{cut, shown, written};
use crate::notation::{is_name, quoted};
use crate::source::Fault;
use record_engine::FEATURES;

/// The table that a text states. The engine tells whether it is accepted.
pub fn read(text: &str) -> Result<Table, Fault> {
    let mut statements = Vec::new();
    for line in lines(text)? {
        statements.push(statement(&line)?);
    }
    if statements.is_empty() {
        return Err(Fault::new(
            0,
            "no line states anything",
            "write a line for each type, as `fitting help table` tells",
        ));
    }
    let house = statements.iter().any(|s| matches!(s, Statement::House));
    let mut table = match house {
        true => Table::house(),
        false => unnamed(&statements)?,
    };
    name_bounds(&mut table, &statements)?;
    let mut number = 0;
    for statement in &statements {
        match *statement {
            Statement::Type { name, .. } if house => {
                let advice = "with `house`, write `type NAME = NUMBER` to name a house type";
                return Err(Fault::new(name.at, "all types are house types", advice));
            }
            Statement::Type { name, .. } => {
                number += 1;
                give(&mut table.types, number, name, "type")?;
            }
            Statement::Numbered { name, .. } if !house => {
                let advice = "types are numbered by their lines: write `type NAME : ABOVE ..`";
                let what = "only house types are named by number";
                return Err(Fault::new(name.at, what, advice));
            }
            Statement::Numbered { name, number } => {
                give(&mut table.types, number, name, "type")?;
            }
            Statement::Feature { name, number, .. } => {
                give(&mut table.features, number, name, "feature")?;
            }
            Statement::House | Statement::Least(_) | Statement::Greatest(_) => {}
        }
    }
    if !house {
        order(&mut table, &statements)?;
    }
    table.list = list(&table, &statements)?;
    Ok(table)
}

/// The text of a table. It reads as the same table. The name of a type without a name is `t` and its
/// number.
pub fn write(table: &Table) -> String {
    let top = table.n - 1;
    let house = Table::house();
    let is_house = table.n == house.n && table.bytes == house.bytes;
    let name = |number: usize| match &table.types[number] {
        Some(name) => written(name),
        None => format!("t{number}"),
    };
    let mut text = String::new();
    for (number, word, implied) in [(0, "least", "bottom"), (top, "greatest", "top")] {
        match table.types[number].as_deref() {
            Some(stated) if stated != implied => text += &format!("{word} {}\n", written(stated)),
            _ => {}
        }
    }
    if is_house {
        text += "house\n";
    } else if table.n == 2 && text.is_empty() {
        // The text needs at least one statement.
        text += &format!("greatest {}\n", name(top));
    }
    for number in 1..top {
        let above = (0..top).filter(|&upper| table.directly_below(upper).contains(&number));
        let above: Vec<String> = above.map(name).collect();
        match (is_house, &table.types[number], above.is_empty()) {
            (true, None, _) => {}
            (true, Some(stated), _) => text += &format!("type {} = {number}\n", written(stated)),
            (false, _, true) => text += &format!("type {}\n", name(number)),
            (false, _, false) => {
                text += &format!("type {} : {}\n", name(number), above.join(" "));
            }
        }
    }
    for number in 0..FEATURES {
        let broadest = table
            .list
            .as_ref()
            .map_or(top, |list| usize::from(list[number]));
        let stated = table.features[number].as_ref();
        if stated.is_none() && broadest == top {
            continue;
        }
        let feature = stated.map_or(format!("f{number}"), |stated| written(stated));
        text += &match broadest == top {
            true => format!("feature {number} {feature}\n"),
            false => format!("feature {number} {feature} : {}\n", name(broadest)),
        };
    }
    text
}

/// A word or a mark of a line, and the byte at which it begins. A name in quotation marks is
/// one word with them.
#[derive(Clone, Copy)]
struct Word<'a> {
    text: &'a str,
    at: usize,
}

impl<'a> Word<'a> {
    /// The name that it is, without quotation marks.
    fn name(self) -> &'a str {
        self.text.trim_matches('"')
    }
}

/// What a line states.
enum Statement<'a> {
    House,
    Type {
        name: Word<'a>,
        above: Vec<Word<'a>>,
    },
    Numbered {
        name: Word<'a>,
        number: usize,
    },
    Least(Word<'a>),
    Greatest(Word<'a>),
    Feature {
        name: Word<'a>,
        number: usize,
        /// The broadest type that may have it, where it is stated.
        broadest: Option<Word<'a>>,
    },
}

/// The words of the lines that are not blank. `:` and `=` are words, and `,` separates words.
fn lines(text: &str) -> Result<Vec<Vec<Word<'_>>>, Fault> {
    let mut lines = Vec::new();
    let mut start = 0;
    for line in text.split_inclusive('\n') {
        let words = words(line, start)?;
        if !words.is_empty() {
            lines.push(words);
        }
        start += line.len();
    }
    Ok(lines)
}

/// The words of a line that begins at a byte of the text.
fn words(line: &str, start: usize) -> Result<Vec<Word<'_>>, Fault> {
    let mut words = Vec::new();
    let mut at = 0;
    while let Some(first) = line[at..].chars().next() {
        let rest = &line[at..];
        let parts = |c: char| c.is_whitespace() || ",:=#\"".contains(c);
        let length = match (first, rest.find(parts)) {
            ('#', _) => break,
            ('"', _) => quoted(rest, start + at)?.len() + 2,
            (_, Some(0)) => first.len_utf8(),
            (_, Some(length)) => length,
            (_, None) => rest.len(),
        };
        if !first.is_whitespace() && first != ',' {
            let text = &rest[..length];
            words.push(Word {
                text,
                at: start + at,
            });
        }
        at += length;
    }
    Ok(words)
}

fn statement<'a>(line: &[Word<'a>]) -> Result<Statement<'a>, Fault> {
    let texts: Vec<&str> = line.iter().map(|word| word.text).collect();
    match texts[..] {
        ["house"] => Ok(Statement::House),
        ["type", _] => Ok(Statement::Type {
            name: line[1],
            above: Vec::new(),
        }),
        ["type", _, ":", _, ..] => Ok(Statement::Type {
            name: line[1],
            above: line[3..].to_vec(),
        }),
        ["type", _, "=", _] => Ok(Statement::Numbered {
            name: line[1],
            number: number(line[3], MOST_TYPES, "a house type")?,
        }),
        ["least", _] => Ok(Statement::Least(line[1])),
        ["greatest", _] => Ok(Statement::Greatest(line[1])),
        ["feature", _, _] => Ok(Statement::Feature {
            name: line[2],
            number: number(line[1], FEATURES, "a feature")?,
            broadest: None,
        }),
        ["feature", _, _, ":", _] => Ok(Statement::Feature {
            name: line[2],
            number: number(line[1], FEATURES, "a feature")?,
            broadest: Some(line[4]),
        }),
        [first, ..] => {
            let form = match first {
                "type" => "`type NAME` or `type NAME : ABOVE ..`",
                "least" | "greatest" => "`least NAME` or `greatest NAME`",
                "feature" => "`feature NUMBER NAME` or `feature NUMBER NAME : TYPE`",
                "house" => "`house` alone",
                _ => {
                    let what = format!("`{}` begins no line of a table", cut(first));
                    let mut advice = "a line begins with type, feature, least, greatest or house";
                    if texts.iter().any(|text| text.contains('[')) {
                        advice = "is this a record as text? A command's first file is the table";
                    }
                    return Err(Fault::new(line[0].at, what, advice));
                }
            };
            let what = format!("this is no line for `{first}`");
            Err(Fault::new(line[0].at, what, format!("write it as {form}")))
        }
        [] => unreachable!("a line has a word"),
    }
}

fn number(word: Word<'_>, most: usize, what: &str) -> Result<usize, Fault> {
    let number = word.text.parse().ok().filter(|&number| number < most);
    number.ok_or_else(|| {
        Fault::new(
            word.at,
            format!("`{}` is not the number of {what}", cut(word.text)),
            format!("{what} has a number from 0 to {}", most - 1),
        )
    })
}

/// A table with the types of the lines, the least and the greatest type, and no names.
fn unnamed(statements: &[Statement<'_>]) -> Result<Table, Fault> {
    let mut n = 2;
    for statement in statements {
        if let Statement::Type { name, .. } = statement {
            if n == MOST_TYPES {
                return Err(Fault::new(
                    name.at,
                    format!("with this type there are more than {MOST_TYPES}"),
                    "leave types out; the least and the greatest count too",
                ));
            }
            n += 1;
        }
    }
    Ok(Table {
        n,
        bytes: Vec::new(),
        types: vec![None; n],
        features: vec![None; FEATURES],
        list: None,
    })
}

/// Names the least and the greatest type, as stated or else `bottom` and `top`.
fn name_bounds(table: &mut Table, statements: &[Statement<'_>]) -> Result<(), Fault> {
    let top = table.n - 1;
    table.types[top] = None;
    for statement in statements {
        match *statement {
            Statement::Least(name) => give(&mut table.types, 0, name, "type")?,
            Statement::Greatest(name) => give(&mut table.types, top, name, "type")?,
            _ => {}
        }
    }
    for (number, implied) in [(0, "bottom"), (top, "top")] {
        table.types[number].get_or_insert_with(|| implied.to_string());
    }
    Ok(())
}

/// Gives a number its name.
fn give(
    names: &mut [Option<String>],
    number: usize,
    word: Word<'_>,
    what: &str,
) -> Result<(), Fault> {
    if !is_name(word.text) && !word.text.starts_with('"') {
        let name = cut(word.text);
        let advice = match word.text.chars().next() {
            Some(first) if first.is_uppercase() => {
                format!("capitals share: write it in quotation marks, `\"{name}\"`")
            }
            _ => "a name begins with a small letter and has letters, digits, `_` and `-`, \
                  or stands in quotation marks"
                .to_string(),
        };
        return Err(Fault::new(word.at, format!("`{name}` is no name"), advice));
    }
    let name = word.name();
    if let Some(other) = number_of(names, name) {
        let advice = match name {
            "top" => "the greatest type is `top` without a line; `greatest NAME` renames it",
            "bottom" => "the least type is `bottom` without a line; `least NAME` renames it",
            _ => "write another name",
        };
        let what = format!("{what} {other} is called `{}` already", shown(name));
        return Err(Fault::new(word.at, what, advice));
    }
    match &names[number] {
        Some(name) => Err(Fault::new(
            word.at,
            format!("{what} {number} is called `{}` already", shown(name)),
            "leave one of the two lines out",
        )),
        None => {
            names[number] = Some(name.to_string());
            Ok(())
        }
    }
}

/// The list of the broadest types that may have features, if a line states one.
fn list(table: &Table, statements: &[Statement<'_>]) -> Result<Option<Vec<u8>>, Fault> {
    let mut list = vec![table.top(); FEATURES];
    for statement in statements {
        if let Statement::Feature {
            number,
            broadest: Some(word),
            ..
        } = statement
        {
            let is_number = word.text.chars().all(|c| c.is_ascii_digit());
            list[*number] = match table.type_named(word.name()) {
                Some(broadest) => broadest,
                // A house type need not have a name.
                None if is_number => self::number(*word, table.n, "a type")? as u8,
                None => return Err(unknown(table, *word)),
            };
        }
    }
    let is_open = list.iter().all(|&broadest| broadest == table.top());
    Ok((!is_open).then_some(list))
}

/// A word that names no type.
fn unknown(table: &Table, word: Word<'_>) -> Fault {
    Fault::new(
        word.at,
        format!("no line names a type `{}`", shown(word.name())),
        table.unnamed_advice(word.name()),
    )
}

/// Fills the rows: each type is below those directly above it, and below what these are
/// below.
fn order(table: &mut Table, statements: &[Statement<'_>]) -> Result<(), Fault> {
    let mut rows: Vec<u64> = (0..table.n).map(|i| 1 << i | 1).collect();
    rows[table.n - 1] |= u64::MAX >> (64 - table.n);
    let types = statements.iter().filter_map(|statement| match statement {
        Statement::Type { above, .. } => Some(above),
        _ => None,
    });
    for (number, above) in (1..).zip(types) {
        for word in above {
            let Some(upper) = table.type_named(word.name()).map(usize::from) else {
                return Err(unknown(table, *word));
            };
            if upper == 0 || upper == number {
                return Err(Fault::new(
                    word.at,
                    format!("`{}` cannot stand above this type", shown(word.name())),
                    "behind `:` stand the other types directly above; none is below the least",
                ));
            }
            rows[upper] |= 1 << number;
        }
    }
    for between in 0..table.n {
        for upper in 0..table.n {
            if rows[upper] >> between & 1 == 1 {
                rows[upper] |= rows[between];
            }
        }
    }
    table.bytes = rows.iter().flat_map(|row| row.to_le_bytes()).collect();
    Ok(())
}
