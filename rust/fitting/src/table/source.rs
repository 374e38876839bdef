//! Writes the bytes of a table as source: a C header or Rust constants, with the names as comments.

use super::Table;
use record_engine::FEATURES;

/// The bytes as a C header; `name` is the table's file.
pub fn c(table: &Table, name: &str) -> String {
    let word = word(name);
    let [constant, guard] = [format!("{}_TYPES", word), format!("{}_TABLE_H", word)];
    let array = word.to_lowercase();
    let mut text = format!("/* {} */\n", described(table, name).replace("*/", "* /"));
    text += &format!("#ifndef {guard}\n#define {guard}\n\n#include <stdint.h>\n\n");
    text += &format!("#define {constant} {}\n\n", table.n);
    text += &format!("/* {ROWS} */\n");
    let comment = |what: String| format!("/* {} */", what.replace("*/", "* /"));
    let length = table.bytes.len();
    text += &format!("static const uint8_t {array}_table[{length}] = {{\n");
    text += &rows(table, &comment);
    text += "};\n";
    if table.list.is_some() {
        text += &format!("\n/* {LIST} */\nstatic const uint8_t {array}_list[{FEATURES}] = {{\n");
        text += &list(table, &comment);
        text += "};\n";
    }
    text + &format!("\n#endif /* {guard} */\n")
}

/// The bytes as Rust constants; `name` is the table's file.
pub fn rust(table: &Table, name: &str) -> String {
    let word = word(name);
    let mut text = format!("// {}\n\n", described(table, name));
    text += &format!(
        "/// The number of types.\npub const {word}_TYPES: usize = {};\n\n",
        table.n
    );
    text += &format!("/// {ROWS}\n#[rustfmt::skip]\n");
    let comment = |what: String| format!("// {what}");
    let length = table.bytes.len();
    text += &format!("pub const {word}_TABLE: [u8; {length}] = [\n");
    text += &rows(table, &comment);
    text += "];\n";
    if table.list.is_some() {
        text += &format!("\n/// {LIST}\n#[rustfmt::skip]\n");
        text += &format!("pub const {word}_LIST: [u8; {FEATURES}] = [\n");
        text += &list(table, &comment);
        text += "];\n";
    }
    text
}

const ROWS: &str = "A row of 8 bytes for each type: bit j of row i is set when type j is below or equal to type i.";
const LIST: &str = "For each feature the broadest type that may have it.";

fn described(table: &Table, name: &str) -> String {
    let (n, fingerprint) = (table.n, table.fingerprint());
    format!("{name}: {n} types, fingerprint {fingerprint}. Written by `fitting table`.")
}

/// A word for identifiers, in capitals: the file's name without folder and ending.
fn word(name: &str) -> String {
    let file = name.rsplit('/').next().unwrap_or(name);
    let stem = file.split('.').find(|part| !part.is_empty()).unwrap_or("");
    let letters = stem.chars().map(|c| match c.is_ascii_alphanumeric() {
        true => c.to_ascii_uppercase(),
        false => '_',
    });
    let word: String = letters.collect();
    match word.chars().next() {
        Some(first) if first.is_ascii_digit() => format!("_{word}"),
        Some(_) if word.chars().any(|c| c != '_') => word,
        _ => "TYPE".to_string(),
    }
}

/// A line of 8 bytes for each type, with its number and name.
fn rows(table: &Table, comment: &dyn Fn(String) -> String) -> String {
    let row = |(number, bytes): (usize, &[u8])| {
        let name = table.type_written(number as u8);
        let comment = match name == number.to_string() {
            true => comment(name),
            false => comment(format!("{number} {name}")),
        };
        format!("    {} {comment}\n", listed(bytes))
    };
    table.bytes.chunks(8).enumerate().map(row).collect()
}

/// A line of 8 bytes for 8 features.
fn list(table: &Table, comment: &dyn Fn(String) -> String) -> String {
    let chunks = table
        .list
        .iter()
        .flat_map(|list| list.chunks(8))
        .enumerate();
    let line = |(chunk, bytes): (usize, &[u8])| {
        let (first, last) = (8 * chunk, 8 * chunk + 7);
        let comment = comment(format!("{first} to {last}"));
        format!("    {} {comment}\n", listed(bytes))
    };
    chunks.map(line).collect()
}

fn listed(bytes: &[u8]) -> String {
    let bytes: Vec<String> = bytes.iter().map(|byte| format!("0x{byte:02X},")).collect();
    bytes.join(" ")
}

#[cfg(test)]
mod tests {
    use super::word;

    #[test]
    fn a_file_gives_a_word_for_identifiers() {
        assert_eq!(word("examples/fitting/device.table"), "DEVICE");
        assert_eq!(word("house"), "HOUSE");
        assert_eq!(word("64-types.v2.table"), "_64_TYPES");
        assert_eq!(word("standard input"), "STANDARD_INPUT");
        assert_eq!(word(".hidden"), "HIDDEN");
        assert_eq!(word("ä"), "TYPE");
        assert_eq!(word("."), "TYPE");
    }
}
