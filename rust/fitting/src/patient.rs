//! A patient's file: a table with its names, and versions of a program over it in a store (Paper
//! 11). docs/PATIENT-FILE.md describes each byte.

use crate::checksum::crc32;
use crate::failure::Failure;
use crate::table::Table;
use crate::{engine, explain};
use record_engine::{Refusal, STORE_LENGTH, Store};

/// The fixed first bytes of the file.
const FIRST_BYTES: &[u8; 8] = b"FITTING\n";

/// The number of the format.
const FORMAT: u8 = 1;

/// What to do about a file that has changed since it was written.
const ADVICE: &str = "hand in a whole copy of what `fitting pack` wrote";

/// What the file holds.
#[derive(Clone, Debug, PartialEq, Eq)]
pub struct Patient {
    pub table: Table,
    pub store: Store,
}

/// Whether bytes are meant to be a patient's file: they begin with the letters of the fixed first bytes.
pub fn is_meant(bytes: &[u8]) -> bool {
    bytes.starts_with(&FIRST_BYTES[..7])
}

impl Patient {
    /// A file without versions, over a table.
    pub fn new(table: Table) -> Patient {
        let store = Store::new();
        Patient { table, store }
    }

    /// The bytes of the file.
    pub fn bytes(&self) -> Vec<u8> {
        let Patient { table, store } = self;
        let (text, used) = (text(table), store.used());
        let mut bytes = FIRST_BYTES.to_vec();
        bytes.extend([FORMAT, table.n as u8]);
        bytes.extend(&table.bytes);
        bytes.extend((text.len() as u32).to_le_bytes());
        bytes.extend(text.as_bytes());
        bytes.extend((used.len() as u16).to_le_bytes());
        bytes.extend(used);
        bytes.extend(crc32(&bytes).to_le_bytes());
        bytes
    }

    /// Opens the bytes of a file of this name. A file that has changed since it was written is a
    /// failure.
    pub fn open(name: &str, bytes: &[u8]) -> Result<Patient, Failure> {
        opened(name, bytes).map_err(|fault| match fault {
            Fault::Refused(failure) => failure,
            Fault::Damaged(what) => Failure::Malformed(format!(
                "{name}: this patient's file is damaged\n  {what}\n  {ADVICE}"
            )),
            Fault::Other(what, advice) => Failure::Malformed(format!("{name}: {what}\n  {advice}")),
        })
    }

    /// Each version's number and written record.
    pub fn programs(&self) -> Result<Vec<(usize, Vec<u8>)>, Refusal> {
        let read = |version| {
            let record = engine::read_version(&self.table, &self.store, version)?;
            Ok((version, record))
        };
        self.store.versions().map(read).collect()
    }
}

/// The table's names and lists as text. A table that has none has no text.
fn text(table: &Table) -> String {
    match table.is_unnamed() {
        true => String::new(),
        false => table.text(),
    }
}

/// Why bytes cannot be opened.
enum Fault {
    /// The bytes are no file of this format.
    Other(String, String),
    /// The bytes have changed since they were written.
    Damaged(String),
    /// The engine refuses the table.
    Refused(Failure),
}

fn opened(name: &str, bytes: &[u8]) -> Result<Patient, Fault> {
    let mut rest = Rest { bytes, at: 0 };
    if !bytes.starts_with(FIRST_BYTES) {
        let (what, advice) = match is_meant(bytes) && bytes.len() > 7 {
            true => (
                "the fixed first bytes of a patient's file do not end as they were written",
                "a transfer as text changes line ends: fetch the file again, as bytes",
            ),
            false => (
                "this is no patient's file: it does not begin with FITTING and a line feed",
                "hand in a file that `fitting pack` wrote",
            ),
        };
        return Err(Fault::Other(what.to_string(), advice.to_string()));
    }
    rest.take(FIRST_BYTES.len(), "the fixed first bytes")?;
    let [format] = rest.array("the number of the format")?;
    if format != FORMAT {
        let what = format!("this patient's file has the format {format}");
        let advice = format!("this tool reads the format {FORMAT}: use the tool that wrote it");
        return Err(Fault::Other(what, advice));
    }
    let [n] = rest.array("the number of types")?;
    let table = rest.take(8 * usize::from(n), "the table")?;
    let length = u32::from_le_bytes(rest.array("the length of the table's text")?);
    let stated = rest.take(length as usize, "the table's text")?;
    let length = u16::from_le_bytes(rest.array("the length of the store")?);
    let used = rest.take(usize::from(length), "the store")?;
    let end = rest.at;
    let checksum = u32::from_le_bytes(rest.array("the checksum")?);
    let damaged = |what: &str| Fault::Damaged(what.to_string());
    if rest.at < bytes.len() {
        let what = format!(
            "its parts end after {} bytes, and it has {}",
            rest.at,
            bytes.len()
        );
        return Err(Fault::Damaged(what));
    }
    if checksum != crc32(&bytes[..end]) {
        return Err(damaged("the checksum is not that of the bytes before it"));
    }
    let table = match stated {
        [] => Table::from_bytes(table),
        stated => {
            let text = std::str::from_utf8(stated).ok();
            let named = text.and_then(|text| Table::from_text(text).ok());
            named
                .filter(|named| named.bytes == table)
                .ok_or_else(|| damaged("the table's text is not that of the table's bytes"))?
        }
    };
    if let Err(refusal) = engine::accept(&table) {
        let failure = explain::table_refused(refusal, &table, name);
        return Err(Fault::Refused(failure));
    }
    if used.len() > STORE_LENGTH {
        return Err(damaged("its store is longer than a store can be"));
    }
    let store = Store::holding(used);
    let patient = Patient { table, store };
    let holds = match engine::read_version(&patient.table, &patient.store, 0) {
        Ok(_) | Err(Refusal::WrongVersion) => patient.programs().is_ok(),
        Err(_) => false,
    };
    if !holds || patient.store.used() != used {
        return Err(damaged("its store holds no programs over its table"));
    }
    // What is held has one file.
    if patient.bytes() != bytes {
        return Err(damaged(
            "the table's text is not as `fitting table` prints it",
        ));
    }
    Ok(patient)
}

/// Bytes, and how many of them have been read.
struct Rest<'a> {
    bytes: &'a [u8],
    at: usize,
}

impl<'a> Rest<'a> {
    /// The next bytes, which are a part of the file.
    fn take(&mut self, length: usize, part: &str) -> Result<&'a [u8], Fault> {
        let rest = &self.bytes[self.at..];
        let Some(taken) = rest.get(..length) else {
            let all = self.bytes.len();
            return Err(Fault::Damaged(format!(
                "it ends after {all} bytes, in {part}"
            )));
        };
        self.at += length;
        Ok(taken)
    }

    fn array<const N: usize>(&mut self, part: &str) -> Result<[u8; N], Fault> {
        let taken = self.take(N, part)?;
        Ok(taken.try_into().expect("as many bytes"))
    }
}

#[cfg(test)]
mod tests {
    use super::*;

    /// A small file: the diamond, and two programs.
    fn small() -> Patient {
        let table = Table::from_text("type a\ntype b\n").expect("a table");
        let mut patient = Patient::new(table);
        for (version, leaf) in [(0, 1), (1, 2)] {
            let record = [1, leaf, 0, 0, 0, 0, 0, 0, 0, 0];
            engine::put_version(&patient.table, &mut patient.store, version, &record)
                .expect("there is room");
        }
        patient
    }

    /// The bytes with a checksum that fits them.
    fn sealed(mut bytes: Vec<u8>) -> Vec<u8> {
        let end = bytes.len() - 4;
        let checksum = crc32(&bytes[..end]).to_le_bytes();
        bytes[end..].copy_from_slice(&checksum);
        bytes
    }

    #[test]
    fn a_file_opens_as_what_was_written() {
        let named = small();
        for table in [named.table.clone(), Table::house(), {
            Table::from_bytes(&named.table.bytes)
        }] {
            let mut patient = Patient::new(table);
            assert_eq!(Patient::open("f", &patient.bytes()), Ok(patient.clone()));
            let record = [1, 1, 0, 0, 0, 0, 0, 0, 0, 0];
            engine::put_version(&patient.table, &mut patient.store, 15, &record)
                .expect("there is room");
            let opened = Patient::open("f", &patient.bytes()).expect("it opens");
            assert_eq!(opened, patient);
            assert_eq!(opened.table.fingerprint(), patient.table.fingerprint());
            assert_eq!(opened.programs(), Ok(vec![(15, record.to_vec())]));
        }
        assert_eq!(Patient::open("f", &named.bytes()), Ok(named));
    }

    #[test]
    fn every_changed_byte_and_every_cut_is_told() {
        let bytes = small().bytes();
        for at in 0..bytes.len() {
            for changed in 0..=255 {
                let mut damaged = bytes.clone();
                damaged[at] = changed;
                let opened = Patient::open("f", &damaged);
                assert_eq!(opened.is_ok(), damaged == bytes, "{at} {changed}");
            }
            assert!(Patient::open("f", &bytes[..at]).is_err(), "{at}");
            // What is cut or added inside moves the rest.
            let added = [&bytes[..at], &[0], &bytes[at..]].concat();
            assert!(Patient::open("f", &added).is_err(), "{at}");
        }
        let longer = [&bytes[..], &[0]].concat();
        assert!(Patient::open("f", &longer).is_err());
    }

    /// A byte that is changed together with the checksum: what opens is another file's, whole,
    /// and all other is refused.
    #[test]
    fn a_checksum_that_fits_is_not_trusted() {
        let bytes = small().bytes();
        let (mut others, mut refused) = (0, 0);
        for at in 0..bytes.len() - 4 {
            for changed in 0..=255 {
                let mut damaged = bytes.clone();
                damaged[at] = changed;
                let damaged = sealed(damaged);
                match Patient::open("f", &damaged) {
                    Ok(patient) => {
                        assert_eq!(patient.bytes(), damaged, "{at} {changed}");
                        assert!(patient.programs().is_ok(), "{at} {changed}");
                        others += 1;
                    }
                    Err(failure) => {
                        assert_eq!(failure.status(), 1, "{at} {changed}");
                        assert!(failure.message().lines().count() >= 2, "{at} {changed}");
                        refused += 1;
                    }
                }
            }
        }
        assert!(others > 100 && refused > 10_000, "{others} {refused}");
    }

    #[test]
    fn each_damage_has_its_words() {
        let bytes = small().bytes();
        let told = |bytes: &[u8]| match Patient::open("f", bytes) {
            Ok(_) => "opened".to_string(),
            Err(failure) => failure.message().to_string(),
        };
        let changed = |at: usize, byte: u8| {
            let mut bytes = bytes.clone();
            bytes[at] = byte;
            sealed(bytes)
        };
        let begins = |bytes: &[u8], what: &str| {
            let told = told(bytes);
            assert!(told.contains(what), "{told}");
        };
        begins(b"FITTINGS", "do not end as they were written");
        begins(b"PATIENT\n", "this is no patient's file");
        begins(&changed(8, 2), "has the format 2");
        begins(&changed(9, 200), "in the table\n");
        begins(&bytes[..9], "it ends after 9 bytes, in the number of types");
        begins(&[&bytes[..], &[0]].concat(), "its parts end after");
        // Type a gets below type b, which the text does not say.
        begins(&changed(10 + 16, 7), "not that of the table's bytes");
        let end = bytes.len() - 4;
        begins(&changed(end - 1, 1), "its store holds no programs");
        // A line of the text that says nothing.
        let at = 10 + 32 + 4;
        let length = bytes[at - 4] + 1;
        let mut longer = [&bytes[..at], b"\n", &bytes[at..]].concat();
        longer[at - 4] = length;
        begins(&sealed(longer), "not as `fitting table` prints it");
        // No types, and types that are in no order.
        let without = [&bytes[..8], &[1, 0], &[0; 4], &[2, 0, 0, 0], &[0; 4]].concat();
        begins(&sealed(without), "refused 1: ");
        let unnamed = [&bytes[..10 + 32], &[0; 4], &[2, 0, 0, 0], &[0; 4]].concat();
        assert_eq!(told(&sealed(unnamed.clone())), "opened");
        let mut reordered = unnamed;
        reordered[10] = 0;
        begins(&sealed(reordered), "refused 2: ");
        let mut seal = bytes.clone();
        seal[end] ^= 1;
        begins(&seal, "the checksum is not");
    }
}
