//! A patient's file: its bytes are those of its document, and programs come back byte for byte. Also
//! damaged files, and files that a refusal or a failure leaves unchanged.

mod tool;

use std::path::Path;
use std::process::Command;
use std::{fs, iter};
use tool::{folder, output, tool};

const CLINIC: &str = "examples/fitting/clinic/clinic.table";
const PROGRAMS: [&str; 5] = ["template", "everyday", "noise", "music", "telephone"];

/// What the tool prints, with its status and what it tells on standard error.
fn told(folder: &Path, arguments: &[&str]) -> (i32, String, String) {
    let told = output(tool(folder, arguments), b"");
    let text = |bytes: Vec<u8>| String::from_utf8(bytes).expect("text");
    let status = told.status.code().expect("the tool ends by itself");
    (status, text(told.stdout), text(told.stderr))
}

/// What the tool prints when it succeeds.
fn printed(folder: &Path, arguments: &[&str]) -> String {
    let (status, printed, error) = told(folder, arguments);
    assert_eq!(status, 0, "{arguments:?}\n{error}");
    printed
}

fn read(folder: &Path, name: &str) -> Vec<u8> {
    fs::read(folder.join(name)).expect("the file is there")
}

/// The clinic's programs in a file.
fn packed(folder: &Path, file: &str) -> Vec<u8> {
    let programs = PROGRAMS.map(|name| format!("examples/fitting/clinic/{name}.txt"));
    let mut arguments = vec!["pack", CLINIC];
    arguments.extend(programs.iter().map(String::as_str));
    arguments.extend(["-o", file]);
    printed(folder, &arguments);
    read(folder, file)
}

#[test]
fn the_document_tells_the_bytes_of_the_example() {
    let folder = folder("patient-document");
    let document = Path::new(env!("CARGO_MANIFEST_DIR")).join("../../docs/PATIENT-FILE.md");
    let document = fs::read_to_string(document).expect("the document is text");
    let lines = document
        .lines()
        .filter_map(|line| line.strip_prefix("    "));
    let mut bytes = Vec::new();
    let mut command = None;
    for line in lines {
        if let Some(words) = line.strip_prefix("fitting ") {
            command = Some(words);
            continue;
        }
        // A place, the bytes in hexadecimal, and behind two blanks what they are.
        let (place, rest) = line.trim_start().split_once("  ").expect("a place");
        assert_eq!(place.parse(), Ok(bytes.len()), "{line}");
        let (digits, _) = rest.split_once("  ").expect("bytes");
        let digits = digits.split(' ');
        bytes.extend(digits.map(|byte| u8::from_str_radix(byte, 16).expect("a byte")));
    }
    let stored = "examples/fitting/patient.fitting";
    assert_eq!(read(&folder, stored), bytes);
    // The example is what the command writes.
    let command = command.expect("the document has a command");
    let arguments: Vec<&str> = command.split(' ').collect();
    let (file, others) = arguments.split_last().expect("a file");
    assert_eq!(*file, stored);
    printed(&folder, &[others, &["own.fitting"]].concat());
    assert_eq!(read(&folder, "own.fitting"), bytes);
}

#[test]
fn programs_come_back_byte_for_byte() {
    let folder = folder("patient-day");
    let bytes = packed(&folder, "patient.fitting");
    printed(&folder, &["unpack", "patient.fitting", "-o", "a/b"]);
    for (version, name) in PROGRAMS.iter().enumerate() {
        let text = format!("examples/fitting/clinic/{name}.txt");
        printed(&folder, &["make", CLINIC, &text, "-o", "made"]);
        let unpacked = read(&folder, &format!("a/b/version-{version}.record"));
        assert_eq!(unpacked, read(&folder, "made"), "{name}");
        // What is printed is text that reads as the same record.
        let version = version.to_string();
        let text = printed(&folder, &["unpack", "patient.fitting", &version]);
        fs::write(folder.join("text"), text).expect("written");
        printed(&folder, &["make", "patient.fitting", "text", "-o", "again"]);
        assert_eq!(read(&folder, "again"), unpacked, "{name}");
    }
    // What is dropped and put again, in any order, leaves the file as it was.
    for versions in [["0", "3"], ["3", "0"], ["4", "1"]] {
        for version in versions {
            printed(&folder, &["drop", "patient.fitting", version]);
        }
        assert_ne!(read(&folder, "patient.fitting"), bytes);
        for version in versions {
            let record = format!("a/b/version-{version}.record");
            printed(&folder, &["put", "patient.fitting", version, &record]);
        }
        assert_eq!(read(&folder, "patient.fitting"), bytes);
    }
    // Programs as records give the file that the texts gave.
    let records = [0, 1, 2, 3, 4].map(|version| format!("a/b/version-{version}.record"));
    let mut arguments = vec!["pack", "patient.fitting"];
    arguments.extend(records.iter().map(String::as_str));
    printed(
        &folder,
        &[&arguments[..], &["-o", "records.fitting"]].concat(),
    );
    assert_eq!(read(&folder, "records.fitting"), bytes);
}

#[test]
fn a_file_serves_as_its_table() {
    let folder = folder("patient-table");
    packed(&folder, "patient.fitting");
    fs::copy(folder.join(CLINIC), folder.join("clinic.table")).expect("copied");
    let [everyday, noise] =
        ["everyday", "noise"].map(|n| format!("examples/fitting/clinic/{n}.txt"));
    let template = "examples/fitting/clinic/template.txt";
    printed(
        &folder,
        &["export", CLINIC, &everyday, "-o", "everyday.csv"],
    );
    let uses: [&[&str]; 19] = [
        &["check"],
        &["check", &everyday],
        &["check", "--json", &everyday, "examples/fitting/p.txt"],
        &["show", &everyday],
        &["make", &everyday, "-o", "-"],
        &["draw"],
        &["draw", &everyday, "--over", template],
        &["order", &everyday, &noise],
        &["compare", &everyday, &noise, "--json"],
        &["same", &everyday, &noise, &everyday],
        &["common", &everyday, &noise],
        &["combine", &everyday, &noise],
        &["difference", template, &everyday, "--why"],
        &["report", &everyday],
        &["list", "--features", "1"],
        &["import", "everyday.csv"],
        &["export", &noise],
        &["table"],
        &["table", "--fingerprint"],
    ];
    for words in uses {
        let over = |table: &str| {
            let arguments = [&[words[0], table], &words[1..]].concat();
            let mut command = tool(&folder, &arguments);
            command.env("PATH", folder.join("target"));
            let told = output(command, b"");
            let text = |bytes: Vec<u8>| String::from_utf8_lossy(&bytes).replace(table, "TABLE");
            (told.status.code(), text(told.stdout), text(told.stderr))
        };
        assert_eq!(over("patient.fitting"), over("clinic.table"), "{words:?}");
    }
}

#[test]
fn no_damaged_file_is_opened() {
    let folder = folder("patient-damaged");
    let bytes = read(&folder, "examples/fitting/patient.fitting");
    let record = "examples/fitting/r.txt";
    // In this process: a run for each would take long.
    let run = |arguments: &[&str]| {
        let arguments: Vec<String> = arguments.iter().map(|word| word.to_string()).collect();
        let (mut out, mut err) = (Vec::new(), Vec::new());
        let status = fitting::run(&arguments, &mut out, &mut err);
        (status, out, String::from_utf8(err).expect("text"))
    };
    let path = |name: &str| folder.join(name).to_str().expect("UTF-8").to_string();
    let (file, record) = (path("damaged.fitting"), path(record));
    let refused = |damaged: &[u8], what: &str| {
        // A new file: to write over an old one waits for the disk.
        let _ = fs::remove_file(&file);
        fs::write(&file, damaged).expect("written");
        let uses: [&[&str]; 6] = [
            &["versions", &file],
            &["unpack", &file],
            &["put", &file, "2", &record],
            &["drop", &file, "0"],
            &["check", &file],
            &["show", &file, &record],
        ];
        for words in uses {
            let (status, out, error) = run(words);
            let command = words[0];
            assert_eq!((status, out.len()), (1, 0), "{command}, {what}");
            assert!(error.lines().count() >= 2, "{command}, {what}: {error}");
            assert!(
                error.contains("damaged.fitting"),
                "{command}, {what}: {error}"
            );
        }
        assert_eq!(fs::read(&file).expect("it is there"), damaged, "{what}");
    };
    for at in 0..bytes.len() {
        let mut damaged = bytes.clone();
        damaged[at] ^= 1 << (at % 8);
        refused(&damaged, &format!("byte {at} is changed"));
        refused(&bytes[..at], &format!("it is cut at {at}"));
    }
    refused(&[&bytes[..], b"\n"].concat(), "a byte is left over");
    refused(&[&bytes[..], &bytes[..]].concat(), "it is there twice");
    fs::write(&file, &bytes).expect("written");
    assert_eq!(run(&["versions", &file]).0, 0);
}

/// A chain of nodes, the first link by a feature, the others by feature 0.
fn chain(nodes: usize, feature: usize) -> String {
    let features = iter::once(feature).chain(iter::repeat_n(0, nodes - 2));
    let begins: String = features.map(|feature| format!("top[{feature}: ")).collect();
    format!("{begins}top{}", "]".repeat(nodes - 1))
}

/// Nodes in a row, each with a link to the next by one feature, and to the one after that by
/// another. Two of these, with the features exchanged, have more in common than a record holds.
fn ladder(nodes: usize, near: u8, far: u8) -> String {
    let begin: String = (0..nodes - 1)
        .map(|node| format!("X{node} top[{near}: "))
        .collect();
    let ends = (0..nodes - 1).rev().map(|node| match node + 2 < nodes {
        true => format!(", {far}: X{}]", node + 2),
        false => "]".to_string(),
    });
    format!("{begin}X{} top{}", nodes - 1, ends.collect::<String>())
}

/// The tool refuses with this message.
fn refusal(folder: &Path, arguments: &[&str], message: &str) {
    let (status, printed, error) = told(folder, arguments);
    assert_eq!(
        (status, printed.as_str()),
        (1, ""),
        "{arguments:?}\n{error}"
    );
    assert_eq!(error, message, "{arguments:?}");
}

#[test]
fn what_the_store_refuses_leaves_the_file() {
    let folder = folder("patient-refused");
    let write = |name: &str, text: &str| fs::write(folder.join(name), text).expect("written");
    let table = "examples/fitting/diamond.table";
    // 21: eight chains that have the root alone in common are too long together.
    let names: Vec<String> = (0..8).map(|feature| format!("chain-{feature}")).collect();
    for (feature, name) in names.iter().enumerate() {
        write(name, &chain(220, feature));
    }
    let pack = |names: &[String], file: &str| -> Vec<String> {
        let words = ["pack", table].map(str::to_string);
        [&words[..], names, &["-o".to_string(), file.to_string()]].concat()
    };
    let words = pack(&names[..6], "six.fitting");
    printed(
        &folder,
        &words.iter().map(String::as_str).collect::<Vec<_>>(),
    );
    let six = read(&folder, "six.fitting");
    let room = "refused 21: the store has too few bytes\n  \
                with chain-7 the programs take more together than the 16,384 bytes of a store\n  \
                drop a version that is not needed, or pack two files\n";
    let words = pack(&names, "eight.fitting");
    refusal(
        &folder,
        &words.iter().map(String::as_str).collect::<Vec<_>>(),
        room,
    );
    assert!(!folder.join("eight.fitting").exists());
    printed(&folder, &["put", "six.fitting", "6", "chain-6"]);
    let seven = read(&folder, "six.fitting");
    assert_ne!(seven, six);
    refusal(&folder, &["put", "six.fitting", "7", "chain-7"], room);
    assert_eq!(read(&folder, "six.fitting"), seven);
    // 11: what both have in common is larger than a record can be.
    write("ladder-0", &ladder(60, 0, 1));
    write("ladder-1", &ladder(60, 1, 0));
    printed(
        &folder,
        &["pack", table, "ladder-0", "-o", "ladders.fitting"],
    );
    let ladders = read(&folder, "ladders.fitting");
    let size = "refused 11: the result has more than 255 nodes or 2,048 links\n  \
                it has 620 nodes and 1180 links\n  \
                leave parts out, or part the records in smaller ones\n";
    refusal(&folder, &["put", "ladders.fitting", "1", "ladder-1"], size);
    assert_eq!(read(&folder, "ladders.fitting"), ladders);
    // 13: the second has no difference from the common part.
    write("types", "type low : x y z\ntype x\ntype y\ntype z\n");
    write("low", "low");
    write("y", "y");
    let (status, _, error) = told(&folder, &["pack", "types", "y", "low", "-o", "two.fitting"]);
    assert_eq!(status, 1);
    assert!(error.starts_with("refused 13: "), "{error}");
    assert!(
        error.contains("version 1") && error.lines().count() == 3,
        "{error}"
    );
    assert!(!folder.join("two.fitting").exists());
    printed(&folder, &["pack", "types", "y", "-o", "two.fitting"]);
    let one = read(&folder, "two.fitting");
    let (status, _, again) = told(&folder, &["put", "two.fitting", "1", "low"]);
    assert_eq!((status, again), (1, error));
    assert_eq!(read(&folder, "two.fitting"), one);
}

#[test]
fn a_drop_may_be_refused() {
    let folder = folder("patient-drop");
    let write = |name: &str, text: &str| fs::write(folder.join(name), text).expect("written");
    // With a third program all have the greatest type in common; without it, type y.
    write("types", "type low : x y z\ntype x\ntype y\ntype z\n");
    write("low", "low");
    write("y", "y");
    write("top", "top");
    printed(
        &folder,
        &["pack", "types", "top", "y", "low", "-o", "p.fitting"],
    );
    let before = read(&folder, "p.fitting");
    let (status, _, error) = told(&folder, &["drop", "p.fitting", "0"]);
    assert_eq!(status, 1, "{error}");
    assert!(error.starts_with("refused 13: "), "{error}");
    assert!(
        error.contains("version 2") && error.lines().count() == 3,
        "{error}"
    );
    assert_eq!(read(&folder, "p.fitting"), before);
}

#[test]
fn a_failed_write_leaves_the_file() {
    let folder = folder("patient-failed");
    let before = packed(&folder, "patient.fitting");
    let line = "ulimit -f 0; trap '' XFSZ; \"$0\" drop patient.fitting 0";
    let mut command = Command::new("sh");
    command.current_dir(&folder).args(["-c", line]);
    command.arg(env!("CARGO_BIN_EXE_fitting"));
    let told = output(command, b"");
    assert_eq!(told.status.code(), Some(2));
    let error = String::from_utf8(told.stderr).expect("text");
    assert!(
        error.starts_with("fitting: cannot write patient.fitting: "),
        "{error}"
    );
    assert_eq!(read(&folder, "patient.fitting"), before);
    let left = fs::read_dir(&folder).expect("a folder").flatten();
    let left = left.filter_map(|file| file.file_name().into_string().ok());
    assert!(left.into_iter().all(|name| !name.starts_with('.')));
    // A file that would be too long to be read gets no name.
    let long = format!("type {}\n", "a".repeat((1 << 20) - 6));
    fs::write(folder.join("long.table"), long).expect("written");
    fs::write(folder.join("top"), "top").expect("written");
    let pack = ["pack", "long.table", "top", "-o", "patient.fitting"];
    let told = output(tool(&folder, &pack), b"");
    assert_eq!(told.status.code(), Some(2));
    assert_eq!(
        String::from_utf8(told.stderr).expect("text"),
        "fitting: cannot write patient.fitting: \
         what was written does not read as what was meant\n"
    );
    assert_eq!(read(&folder, "patient.fitting"), before);
    // Versions are not unpacked over the file that they are in.
    fs::create_dir(folder.join("f")).expect("made");
    fs::write(folder.join("f/version-0.record"), &before).expect("written");
    let own = ["unpack", "f/version-0.record", "-o", "f"];
    let told = output(tool(&folder, &own), b"");
    assert_eq!(told.status.code(), Some(2));
    assert_eq!(read(&folder, "f/version-0.record"), before);
}
