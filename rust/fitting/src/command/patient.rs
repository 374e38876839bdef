//! `pack`, `versions`, `unpack`, `put` and `drop`: the commands on a patient's file and its versions.

use super::{Told, counted, text};
use crate::command::arguments::{Arguments, is_one_file};
use crate::explain::{self, Use};
use crate::failure::Failure;
use crate::graph::Graph;
use crate::input::{self, Input};
use crate::names::{cut, cut_file};
use crate::patient::Patient;
use crate::table::Table;
use crate::{engine, notation, output};
use record_engine::STORE_LENGTH;
use std::fs;
use std::path::Path;

/// The greatest width of a line about a version.
const WIDTH: usize = 80;

/// A version's number and its written record.
type Program = (usize, Vec<u8>);

/// `pack`: writes programs to a file, and tells how many bytes they take alone and together.
pub fn pack(table: Table, arguments: &Arguments) -> Result<Told, Failure> {
    let file = match arguments.output() {
        Some("-") => return Err(arguments.misused("`pack` writes a file, which `-` is not")),
        Some(file) => file,
        None => return Err(arguments.misused("`pack` needs `-o FILE`")),
    };
    let mut patient = Patient::new(table);
    let mut programs: Vec<Program> = Vec::new();
    let files = &arguments.operands[1..];
    for (version, argument) in files.iter().enumerate() {
        let input = Input::read(&patient.table, argument)?;
        let record = input.written(&patient.table)?;
        add(&mut patient, &input, version, &record, &programs)?;
        programs.push((version, record));
    }
    let length = store(file, &patient, &programs)?;
    let names: Vec<String> = files
        .iter()
        .map(|file| cut_file(input::name(file)))
        .collect();
    let width = names.iter().map(|name| name.chars().count()).max();
    let width = width.unwrap_or(0);
    let mut told = String::new();
    for ((version, record), name) in programs.iter().zip(&names) {
        let bytes = grouped(record.len());
        told += &format!("version {version:<2}  {name:width$}  {bytes:>6} bytes alone\n");
    }
    let alone: usize = programs.iter().map(|(_, record)| record.len()).sum();
    let together = patient.store.used().len();
    // In tenths of a percent, rounded.
    let ratio = (2_000 * together + alone) / (2 * alone);
    told += &format!(
        "{}: {} bytes alone, {} together, {}.{} %\n",
        counted(programs.len(), "program"),
        grouped(alone),
        grouped(together),
        ratio / 10,
        ratio % 10
    );
    let fingerprint = patient.table.fingerprint();
    told += &format!(
        "{file}: {} bytes with the table ({fingerprint}), unpacked again and compared\n",
        grouped(length)
    );
    Ok(text(told))
}

/// `versions`: prints a line for each version, and the bytes that all take.
pub fn versions(arguments: &Arguments) -> Result<Told, Failure> {
    let (_, patient) = opened(arguments)?;
    let mut told = String::new();
    for (version, record) in programs(&patient) {
        let line = notation::write_line(&patient.table, &Graph::of_written(&record));
        let bytes = grouped(record.len());
        let line = format!(
            "version {version:<2}  {bytes:>6} bytes  {}",
            line.trim_end()
        );
        told += &format!("{}\n", within(&line));
    }
    let fingerprint = patient.table.fingerprint();
    told += &format!("{}, table {fingerprint}\n", sized(&patient));
    Ok(text(told))
}

/// `unpack`: prints versions as text, or writes them as records into a folder.
pub fn unpack(arguments: &Arguments) -> Result<Told, Failure> {
    if arguments.output() == Some("-") {
        return Err(arguments.misused("`unpack` writes into a folder, which `-` is not"));
    }
    let (name, patient) = opened(arguments)?;
    let all = programs(&patient);
    let asked = arguments.operands[1..].iter();
    let asked = asked.map(|word| number(arguments, word));
    let asked = asked.collect::<Result<Vec<usize>, Failure>>()?;
    let chosen = match asked.is_empty() {
        true => all,
        false => {
            let read = |version| {
                engine::read_version(&patient.table, &patient.store, version)
                    .map(|record| (version, record))
                    .map_err(|refusal| {
                        let asked = Use::Taken {
                            file: &name,
                            version,
                        };
                        explain::store_refused(refusal, &patient.table, &all, asked)
                    })
            };
            asked.into_iter().map(read).collect::<Result<_, _>>()?
        }
    };
    let Some(folder) = arguments.output() else {
        let mut told = String::new();
        for (version, record) in &chosen {
            let record = notation::write(&patient.table, &Graph::of_written(record));
            told += &format!("# version {version}\n{record}");
        }
        let fingerprint = patient.table.fingerprint();
        return Ok(text(format!("{told}# table {fingerprint}\n")));
    };
    let into = |version: usize| {
        let file = Path::new(folder).join(format!("version-{version}.record"));
        file.to_string_lossy().into_owned()
    };
    let own = &arguments.operands[0];
    for (version, _) in &chosen {
        let file = into(*version);
        if is_one_file(own, &file) {
            let what = format!("`-o {folder}` would write over {own}, which is read");
            return Err(arguments.misused(&what));
        }
    }
    fs::create_dir_all(folder)
        .map_err(|error| Failure::usage(format!("cannot make the folder {folder}: {error}")))?;
    let mut told = String::new();
    for (version, record) in &chosen {
        let file = into(*version);
        output::write(&file, record)?;
        told += &format!("{file}: {} bytes\n", grouped(record.len()));
    }
    Ok(text(told))
}

/// `put`: puts a program under a version that is absent.
pub fn put(arguments: &Arguments) -> Result<Told, Failure> {
    let (_, mut patient) = changed(arguments)?;
    let version = number(arguments, &arguments.operands[1])?;
    let mut programs = programs(&patient);
    let input = Input::read(&patient.table, &arguments.operands[2])?;
    let record = input.written(&patient.table)?;
    add(&mut patient, &input, version, &record, &programs)?;
    programs.push((version, record));
    programs.sort();
    finish(arguments, &patient, &programs, version, "put")
}

/// `drop`: removes a version.
pub fn drop(arguments: &Arguments) -> Result<Told, Failure> {
    let (name, mut patient) = changed(arguments)?;
    let version = number(arguments, &arguments.operands[1])?;
    let mut programs = programs(&patient);
    let dropped = engine::drop_version(&patient.table, &mut patient.store, version);
    dropped.map_err(|refusal| {
        let asked = Use::Taken {
            file: &name,
            version,
        };
        explain::store_refused(refusal, &patient.table, &programs, asked)
    })?;
    programs.retain(|(number, _)| *number != version);
    finish(arguments, &patient, &programs, version, "dropped")
}

/// The file that a command reads, with its name. `--table` names the table that the file has to have.
fn opened(arguments: &Arguments) -> Result<(String, Patient), Failure> {
    let (name, patient) = input::patient(&arguments.operands[0])?;
    if let Some(argument) = arguments.value("--table") {
        let table = input::table(argument)?;
        if let Some(how) = patient.table.unlike(&table) {
            let other = input::name(argument);
            return Err(Failure::Malformed(format!(
                "{name} is over another table than {other}\n  in {other}, {how}\n  \
                 hand in the table that it was packed with, or leave `--table` out"
            )));
        }
    }
    Ok((name, patient))
}

/// The file that a command changes, with its name.
fn changed(arguments: &Arguments) -> Result<(String, Patient), Failure> {
    match arguments.operands[0].as_str() {
        "-" => Err(arguments.misused("FILE is changed, which standard input cannot be")),
        _ => opened(arguments),
    }
}

/// The number of a version as it was typed. The engine tells whether there is such a version.
fn number(arguments: &Arguments, word: &str) -> Result<usize, Failure> {
    word.parse()
        .map_err(|_| arguments.misused(&format!("`{}` is no number of a version", cut(word))))
}

/// The programs of a file that was opened.
fn programs(patient: &Patient) -> Vec<Program> {
    patient
        .programs()
        .expect("each was read when the file was opened")
}

/// Puts a program, or tells why it is refused. The message needs the other programs too.
fn add(
    patient: &mut Patient,
    input: &Input,
    version: usize,
    record: &[u8],
    programs: &[Program],
) -> Result<(), Failure> {
    let put = engine::put_version(&patient.table, &mut patient.store, version, record);
    put.map(|_| ()).map_err(|refusal| {
        let mut all = programs.to_vec();
        all.push((version, record.to_vec()));
        all.sort();
        let name = &input.name;
        explain::store_refused(refusal, &patient.table, &all, Use::Put { name, version })
    })
}

/// Writes a file, and gives the number of bytes. The file gets its name only after every version was
/// unpacked from the written bytes and was the program that it should be.
fn store(file: &str, patient: &Patient, programs: &[Program]) -> Result<usize, Failure> {
    let bytes = patient.bytes();
    let check = |read: &[u8]| {
        let again = Patient::open(file, read).ok();
        let is_whole = again.is_some_and(|again| {
            again.table == patient.table && again.programs().is_ok_and(|again| again == programs)
        });
        is_whole && input::is_read_whole(read)
    };
    output::write_checked(file, &bytes, &check)?;
    Ok(bytes.len())
}

/// Writes a changed file and tells it.
fn finish(
    arguments: &Arguments,
    patient: &Patient,
    programs: &[Program],
    version: usize,
    what: &str,
) -> Result<Told, Failure> {
    let file = &arguments.operands[0];
    store(file, patient, programs)?;
    let sized = sized(patient);
    Ok(text(format!(
        "{file}: version {version} is {what}; {sized}\n"
    )))
}

/// How many versions there are, and what they use.
fn sized(patient: &Patient) -> String {
    let versions = counted(patient.store.versions().count(), "version");
    let [used, most] = [patient.store.used().len(), STORE_LENGTH].map(grouped);
    format!("{versions}, {used} of {most} bytes")
}

/// A line, cut to the width.
fn within(line: &str) -> String {
    match line.chars().count() > WIDTH {
        true => format!("{}...", line.chars().take(WIDTH - 3).collect::<String>()),
        false => line.to_string(),
    }
}

/// A number with a comma before each three digits.
fn grouped(number: usize) -> String {
    match number {
        0..=999 => number.to_string(),
        _ => format!("{},{:03}", grouped(number / 1_000), number % 1_000),
    }
}

#[cfg(test)]
mod tests {
    use super::{grouped, within};

    #[test]
    fn numbers_and_lines_as_they_are_told() {
        assert_eq!([0, 999, 1_000, 16_384, 1_000_007].map(grouped).join(" "), {
            "0 999 1,000 16,384 1,000,007"
        });
        assert_eq!(within("ä"), "ä");
        assert_eq!(within(&"ä".repeat(80)), "ä".repeat(80));
        assert_eq!(within(&"ä".repeat(81)), "ä".repeat(77) + "...");
    }
}
