//! Reads what a command needs: a table, and records or texts. Their content tells records from
//! texts. An accepted record has eight zero bytes in a row, which are the feature map of a node
//! without links. A text has no control characters except white space.

use crate::failure::Failure;
use crate::graph::Graph;
use crate::names::{cut_file, nearest};
use crate::notation::{self, Text};
use crate::patient::{self, Patient};
use crate::planning::File as Csv;
use crate::source::{Fault, line_feeds};
use crate::table::Table;
use crate::{engine, explain};
use std::collections::BTreeSet;
use std::fs::{self, File};
use std::io::{self, ErrorKind, Read};
use std::path::{Path, PathBuf};

/// The most bytes that are read. No table, record or sensible text is longer.
const LONGEST_FILE: u64 = 1 << 20;

/// A record as it was handed to a command.
#[derive(Clone, Debug)]
pub struct Input {
    /// The name of the file, or `standard input`.
    pub name: String,
    /// The name that messages give it.
    pub shown: String,
    pub record: Vec<u8>,
    /// The text and its parts, if the record was read from text.
    pub text: Option<(String, Text)>,
}

impl Input {
    /// Reads a record or a text. It does not check whether the record is accepted.
    pub fn read(table: &Table, argument: &str) -> Result<Input, Failure> {
        let (name, bytes) = contents(argument)?;
        // A text may begin with these letters: capitals name a node.
        if patient::is_meant(&bytes) && content(&bytes) == Content::Binary {
            return Err(Failure::Malformed(format!(
                "{name}: this is a patient's file, and no record\n  \
                 `fitting versions` tells its programs, and `fitting unpack` gives them"
            )));
        }
        let (record, text) = match content(&bytes) {
            Content::Empty => {
                let advice = "hand in a record, or text as `fitting help text` tells it";
                return Err(empty(&name, advice));
            }
            Content::Utf16 => return Err(utf16(&name)),
            Content::Binary if !is_like_a_record(&bytes) => return Err(neither(&name, &bytes)),
            Content::Binary => (bytes, None),
            Content::Text => {
                let text = decoded(&name, &bytes)?;
                let read = notation::read(table, &text).map_err(|mut fault| {
                    if Table::from_text(&text).is_ok() {
                        fault.advice =
                            "this is a table: TABLE stands before the records".to_string();
                    }
                    Failure::Malformed(fault.message(&name, &text))
                })?;
                (read.graph.encode(), Some((text, read)))
            }
        };
        let shown = cut_file(&name);
        Ok(Input {
            name,
            shown,
            record,
            text,
        })
    }

    /// The written form, if the engine accepts the record.
    pub fn written(&self, table: &Table) -> Result<Vec<u8>, Failure> {
        engine::rewrite(table, &self.record)
            .map_err(|refusal| explain::refused(refusal, None, table, &[self]))
    }

    /// The graph of the written form.
    pub fn graph(&self, table: &Table) -> Result<Graph, Failure> {
        self.written(table)
            .map(|written| Graph::of_written(&written))
    }
}

/// What messages call an argument.
pub fn name(argument: &str) -> &str {
    match argument {
        "-" => "standard input",
        file => file,
    }
}

/// The files that arguments name, in the order of the arguments, each once. For a folder these are
/// the files in it and in its folders, sorted by name, except hidden files and the table's own file.
pub fn files(table: &str, arguments: &[String]) -> Result<Vec<String>, Failure> {
    let mut files = Vec::new();
    for argument in arguments {
        match Path::new(argument).is_dir() {
            false => files.push(argument.clone()),
            true => {
                let before = files.len();
                walk(
                    Path::new(argument),
                    fs::canonicalize(table).ok(),
                    &mut files,
                )
                .map_err(|error| Failure::usage(format!("cannot read {argument}: {error}")))?;
                if files.len() == before {
                    return Err(Failure::usage(format!(
                        "{argument}: no file is in this folder"
                    )));
                }
            }
        }
    }
    let mut met = BTreeSet::new();
    files.retain(|file| match fs::canonicalize(file) {
        Ok(named) if file != "-" => met.insert(named),
        // An error is told later, when the file is read.
        _ => true,
    });
    Ok(files)
}

fn walk(folder: &Path, table: Option<PathBuf>, files: &mut Vec<String>) -> io::Result<()> {
    let mut entries = fs::read_dir(folder)?.collect::<io::Result<Vec<_>>>()?;
    entries.sort_by_key(fs::DirEntry::file_name);
    for entry in entries {
        let path = entry.path();
        let is_hidden = entry.file_name().to_string_lossy().starts_with('.');
        let is_table = table.is_some() && fs::canonicalize(&path).ok() == table;
        if is_hidden || is_table {
            continue;
        }
        // A link to a folder is not followed: it may lead back.
        if entry.file_type()?.is_dir() {
            walk(&path, table.clone(), files)?;
        } else if path.is_file() {
            let name = path.to_str().ok_or(ErrorKind::InvalidFilename)?;
            files.push(name.to_string());
        }
    }
    Ok(())
}

/// Reads a table that the engine accepts, from a table's file or from a patient's file.
pub fn table(argument: &str) -> Result<Table, Failure> {
    if argument == "house" {
        return Ok(Table::house());
    }
    let (name, bytes) = contents(argument)?;
    if patient::is_meant(&bytes) {
        return Patient::open(&name, &bytes).map(|patient| patient.table);
    }
    let table = match content(&bytes) {
        Content::Empty => {
            let advice = "hand in a table, as `fitting help table` tells it, or the word `house`";
            return Err(empty(&name, advice));
        }
        Content::Utf16 => return Err(utf16(&name)),
        Content::Binary => Table::from_bytes(&bytes),
        Content::Text => {
            let text = decoded(&name, &bytes)?;
            Table::from_text(&text)
                .map_err(|fault| Failure::Malformed(fault.message(&name, &text)))?
        }
    };
    match engine::accept(&table) {
        Ok(()) => Ok(table),
        Err(refusal) => Err(explain::table_refused(refusal, &table, &name)),
    }
}

/// Reads a patient's file, and also gives its name.
pub fn patient(argument: &str) -> Result<(String, Patient), Failure> {
    let (name, bytes) = contents(argument)?;
    if bytes.is_empty() {
        return Err(empty(&name, "hand in a file that `fitting pack` wrote"));
    }
    let patient = Patient::open(&name, &bytes)?;
    Ok((name, patient))
}

/// Whether a file of these bytes is not too long to be read.
pub fn is_read_whole(bytes: &[u8]) -> bool {
    bytes.len() as u64 <= LONGEST_FILE
}

/// Reads a file of CSV. It does not check what the file says.
pub fn csv(argument: &str) -> Result<Csv, Failure> {
    let (name, bytes) = contents(argument)?;
    let advice = "hand in CSV, as spreadsheets and `fitting export` write it";
    match content(&bytes) {
        Content::Empty => Err(empty(&name, advice)),
        Content::Utf16 => Err(utf16(&name)),
        Content::Binary => {
            let at = bytes.iter().position(is_control).unwrap_or(0);
            let line = bytes[..at].iter().filter(|&&byte| byte == b'\n').count() + 1;
            let byte = bytes[at];
            Err(Failure::Malformed(format!(
                "{name}:{line}: byte {byte:#04x} is no text\n  {advice}"
            )))
        }
        Content::Text => decoded(&name, &bytes).map(|text| Csv::new(&name, &text)),
    }
}

/// The kind of some bytes, by their content.
#[derive(Clone, Copy, Debug, PartialEq, Eq)]
enum Content {
    /// There is nothing, or nothing but white space.
    Empty,
    Text,
    /// Text with two bytes for a letter, which is not read here.
    Utf16,
    /// Some of the bytes are in no text.
    Binary,
}

fn content(bytes: &[u8]) -> Content {
    let behind_mark = bytes.strip_prefix(b"\xEF\xBB\xBF").unwrap_or(bytes);
    if behind_mark.trim_ascii().is_empty() {
        Content::Empty
    } else if is_utf16(bytes) {
        Content::Utf16
    } else if bytes.iter().any(is_control) {
        Content::Binary
    } else {
        Content::Text
    }
}

/// Whether a byte is a control character other than white space.
fn is_control(byte: &u8) -> bool {
    byte.is_ascii_control() && !byte.is_ascii_whitespace()
}

/// Whether bytes are text with two bytes for a letter. With a mark of the byte order at the
/// beginning it is any text, otherwise letters of ASCII. No accepted table or record looks like
/// that: its seven or eight zero bytes in a row contain a letter that no text has.
fn is_utf16(bytes: &[u8]) -> bool {
    if bytes.len() < 4 || !bytes.len().is_multiple_of(2) {
        return false;
    }
    let pairs = bytes.chunks(2).map(|pair| [pair[0], pair[1]]);
    let is_text = |units: Vec<u16>| match String::from_utf16(&units) {
        Err(_) => false,
        Ok(text) => {
            let is_marked = text.starts_with('\u{feff}');
            let is_letter = |c: char| is_marked || c.is_ascii();
            text.chars()
                .all(|c| is_letter(c) && (!c.is_control() || c.is_whitespace()))
        }
    };
    is_text(pairs.clone().map(u16::from_le_bytes).collect())
        || is_text(pairs.map(u16::from_be_bytes).collect())
}

/// Whether bytes look like a record, so that the engine can tell what is wrong with them: they
/// have eight zeros in a row, as every accepted record does, or they are a list of nodes.
fn is_like_a_record(bytes: &[u8]) -> bool {
    bytes.windows(8).any(|bytes| bytes == [0; 8]) || Graph::decode(bytes).is_ok()
}

fn empty(name: &str, advice: &str) -> Failure {
    let what = match name {
        "standard input" => "there is nothing on it",
        _ => "the file is empty",
    };
    Failure::Malformed(format!("{name}: {what}\n  {advice}"))
}

fn utf16(name: &str) -> Failure {
    Failure::Malformed(format!(
        "{name}: this is text in UTF-16\n  save the file as UTF-8"
    ))
}

fn neither(name: &str, bytes: &[u8]) -> Failure {
    let control = bytes.iter().find(|byte| is_control(byte)).unwrap_or(&0);
    let as_record = explain::malformed(bytes);
    Failure::Malformed(format!(
        "{name}: neither text nor a record\n  \
         text has no byte {control:#04x}, and a record has eight zero bytes in a row\n  \
         hand in another file; taken for a record, {as_record}"
    ))
}

/// The text of bytes, with a line feed for each line end. A mark of the byte order at the beginning
/// is left out.
fn decoded(name: &str, bytes: &[u8]) -> Result<String, Failure> {
    match std::str::from_utf8(bytes) {
        Ok(text) => Ok(line_feeds(text.strip_prefix('\u{feff}').unwrap_or(text))),
        Err(error) => {
            let at = error.valid_up_to();
            let what = format!("byte {:#04x} is no UTF-8 text", bytes[at]);
            let fault = Fault::new(at, what, "save the file as UTF-8");
            let text = String::from_utf8_lossy(bytes);
            Err(Failure::Malformed(fault.message(name, &text)))
        }
    }
}

/// The name and the bytes of a file, or of standard input.
fn contents(argument: &str) -> Result<(String, Vec<u8>), Failure> {
    let opened: io::Result<Box<dyn Read>> = match argument {
        "-" => Ok(Box::new(io::stdin())),
        file => File::open(file).map(|file| Box::new(file) as Box<dyn Read>),
    };
    let mut bytes = Vec::new();
    let read = opened.and_then(|file| file.take(LONGEST_FILE + 1).read_to_end(&mut bytes));
    let name = name(argument).to_string();
    match read {
        Err(error) => {
            let mut message = format!("cannot read {name}: {error}");
            if error.kind() == ErrorKind::NotFound {
                message += &neighbour(argument).unwrap_or_default();
            }
            Err(Failure::usage(message))
        }
        Ok(length) if length as u64 > LONGEST_FILE => Err(Failure::usage(format!(
            "{name} is longer than {LONGEST_FILE} bytes, more than any table, record or text here"
        ))),
        Ok(_) => Ok((name, bytes)),
    }
}

/// A question that proposes the file with the nearest name in the same folder, for a name that does
/// not exist.
fn neighbour(argument: &str) -> Option<String> {
    const LOOKED_AT: usize = 1_000;
    let missing = Path::new(argument);
    let folder = missing.parent()?;
    let looked_in = match folder.as_os_str().is_empty() {
        true => Path::new("."),
        false => folder,
    };
    let files = fs::read_dir(looked_in).ok()?.take(LOOKED_AT).flatten();
    let files: Vec<String> = files
        .filter_map(|file| file.file_name().into_string().ok())
        .collect();
    let wrong = missing.file_name()?.to_str()?;
    let near = nearest(wrong, files.iter().map(String::as_str))?;
    Some(format!("\n  did you mean {}?", folder.join(near).display()))
}

#[cfg(test)]
mod tests {
    use super::*;

    #[test]
    fn text_and_records_are_told_apart() {
        for text in ["top[0: X a,\r\n\t1: X] # comment\n", "höhe", "\u{feff}a"] {
            assert_eq!(content(text.as_bytes()), Content::Text);
        }
        for empty in ["", " \r\n\t", "\u{feff}", "\u{feff}\n"] {
            assert_eq!(content(empty.as_bytes()), Content::Empty);
        }
        // The shortest record, and one whose other bytes are all letters.
        for record in [
            [1, 3, 0, 0, 0, 0, 0, 0, 0, 0],
            [b'a', b'b', 0, 0, 0, 0, 0, 0, 0, 0],
        ] {
            assert_eq!(content(&record), Content::Binary);
            assert!(is_like_a_record(&record));
        }
        assert_eq!(content(&[2, 3]), Content::Binary);
        assert!(!is_like_a_record(&[2, 3]));
        // A node that reaches itself by its only link: no eight zeros, and yet a record's form.
        let cyclic = [1, 3, 1, 0, 0, 0, 0, 0, 0, 1, 0, 0];
        assert!(is_like_a_record(&cyclic));
    }

    #[test]
    fn text_of_two_bytes_a_letter_is_known() {
        let wide = |little: bool, text: &str| -> Vec<u8> {
            let units = text.encode_utf16();
            let bytes = units.map(|unit| match little {
                true => unit.to_le_bytes(),
                false => unit.to_be_bytes(),
            });
            bytes.collect::<Vec<_>>().concat()
        };
        for little in [false, true] {
            assert_eq!(content(&wide(little, "type a")), Content::Utf16);
            assert_eq!(content(&wide(little, "\u{feff}höhe")), Content::Utf16);
        }
        // A table has zeros in a row, and other bytes are not letters.
        let table = [1, 0, 0, 0, 0, 0, 0, 0, 3, 0, 0, 0, 0, 0, 0, 0];
        for other in [&table[..], &[1, 0, 3, 0], &[0xFF, 0xFE, 1, 0]] {
            assert_eq!(content(other), Content::Binary);
        }
        // Bytes of text are not taken for it: `ab` is one letter of another script.
        assert_eq!(content(b"abcd"), Content::Text);
    }
}
