//! Random tables, records, pairs, texts and planning tables, many of them damaged: the tool
//! answers each, and every refusal tells its cause and what to do.

mod rows;

use fitting::graph::Graph;
use fitting::notation;
use fitting::planning::{self, File, NodeBytes};
use fitting::table::Table;
use record_engine::Row;
use reference::random::{self, Ranges, Shape, Xorshift};
use reference::record;
use rows::exported;
use std::fs;
use std::path::{Path, PathBuf};

/// Runs the tool in this process: its status, and what it writes to standard error.
fn told(arguments: &[&str]) -> (u8, String) {
    let arguments: Vec<String> = arguments.iter().map(|word| word.to_string()).collect();
    let (mut out, mut err) = (Vec::new(), Vec::new());
    let status = fitting::run(&arguments, &mut out, &mut err);
    assert_eq!(status == 0, err.is_empty(), "{arguments:?}");
    (status, String::from_utf8(err).expect("messages are text"))
}

/// A message has a heading or a place, the cause, and what to do. For an empty file and for text in
/// UTF-16 it has no cause.
fn assert_explained(status: u8, message: &str) {
    assert!(status < 2, "{message}");
    let causeless = [": the file is empty\n", ": this is text in UTF-16\n"];
    let least = match causeless.iter().any(|what| message.contains(what)) {
        true => 2,
        false => 3,
    };
    assert!(status == 0 || message.lines().count() >= least, "{message}");
}

/// A folder for a test to write into.
fn folder(name: &str) -> PathBuf {
    let folder = Path::new(env!("CARGO_TARGET_TMPDIR")).join(format!("fitting-{name}"));
    fs::create_dir_all(&folder).expect("the folder can be made");
    folder
}

/// Writes bytes to a file of a folder; its name as an argument.
fn stored(folder: &Path, name: &str, bytes: &[u8]) -> String {
    let file = folder.join(name);
    // A new file: to write over an old one waits for the disk.
    let _ = fs::remove_file(&file);
    fs::write(&file, bytes).expect("the file can be written");
    file.to_str().expect("a name in UTF-8").to_string()
}

#[test]
fn a_refused_table_has_its_cause_told() {
    let folder = folder("damaged-tables");
    let mut random = Xorshift::stored(30);
    let mut refused = 0;
    for _ in 0..2_000 {
        let table = random::damaged_table(&mut random);
        let file = stored(&folder, "table", &table.bytes);
        let (status, message) = told(&["check", &file]);
        assert_explained(status, &message);
        refused += u32::from(status);
    }
    assert!(refused > 1_000 || !random::is_stored(), "{refused}");
}

#[test]
fn a_refused_record_has_its_cause_told() {
    let folder = folder("damaged-records");
    let mut random = Xorshift::stored(31);
    let mut refused = [0; 8];
    let mut neither = 0;
    for round in 0..2_000 {
        let table = random::valid_table(&mut random);
        let ranges = [Ranges::Absent, Ranges::Present][round % 2];
        let record = random::damaged_record(&mut random, table.n, ranges);
        let file = stored(&folder, "table", &table.bytes);
        let (status, message) = told(&["check", &file, &stored(&folder, "record", &record)]);
        assert_explained(status, &message);
        let number = message.strip_prefix("refused ");
        let number = number.and_then(|rest| rest.split(':').next());
        refused[number.map_or(0, |number| number.parse().expect("a number"))] += 1;
        neither += u32::from(message.contains(": neither text nor a record\n"));
    }
    let enough = refused[4..].iter().all(|&count| count > 50) && neither > 10;
    assert!(enough || !random::is_stored(), "{refused:?} {neither}");
}

#[test]
fn a_refused_operation_has_its_cause_told() {
    let folder = folder("damaged-pairs");
    let mut random = Xorshift::stored(32);
    let mut refused = [0; 14];
    for round in 0..2_000 {
        let table = match round % 3 {
            0 => random::rival_table(&mut random),
            _ => random::valid_table(&mut random),
        };
        let shape = Shape::any(&mut random);
        let accepted = table.accepted();
        let (first, second) = match round % 6 {
            0 => random::low_pair(&mut random, &accepted, &shape),
            _ => random::pair(&mut random, &accepted, &shape),
        };
        let file = stored(&folder, "table", &table.bytes);
        let first = stored(&folder, "first", &record::write(&first));
        let second = stored(&folder, "second", &record::write(&second));
        for command in ["order", "common", "combine", "difference"] {
            let (status, message) = told(&[command, &file, &first, &second]);
            assert_explained(status, &message);
            let number = message
                .strip_prefix("refused ")
                .and_then(|rest| rest.split(':').next());
            refused[number.map_or(0, |number| number.parse().expect("a number"))] += 1;
        }
    }
    let enough = refused[9..].iter().all(|&count| count > 5);
    assert!(enough || !random::is_stored(), "{refused:?}");
}

#[test]
fn a_damaged_text_is_read_or_has_a_place() {
    const PIECES: [&str; 16] = [
        "[", "]", "{", "}", ":", ",", "..", "X", "top", "1", "63", " ", "#", "\n", "é", "%",
    ];
    let mut random = Xorshift::stored(33);
    let table = Table::from_bytes(&random::diamond().bytes);
    let (mut read, mut refused) = (0, 0);
    for _ in 0..10_000 {
        let shape = Shape::small(&mut random, 8, 4);
        let record = record::write(&random::graph(&mut random, table.n, &shape));
        let graph = Graph::decode(&record).expect("a record");
        // Blanks, so that there is always a character to change.
        let text = notation::write(&table, &graph) + "   ";
        let text = damaged(&mut random, &text, &PIECES);
        match notation::read(&table, &text) {
            Ok(_) => read += 1,
            Err(fault) => {
                refused += 1;
                assert_placed(&fault.message("text", &text));
            }
        }
    }
    let enough = read > 500 && refused > 5_000;
    assert!(enough || !random::is_stored(), "{read} {refused}");
}

/// A text with one to three characters or pieces put in, changed or left out.
fn damaged(random: &mut Xorshift, text: &str, pieces: &[&str]) -> String {
    let mut text: Vec<char> = text.chars().collect();
    for _ in 0..random.between(1, 3) {
        let place = random.pick(text.len());
        let piece = random.choose(pieces).chars();
        match random.pick(3) {
            0 => drop(text.splice(place..place, piece)),
            1 => drop(text.splice(place..place + 1, piece)),
            _ => drop(text.remove(place)),
        }
    }
    text.into_iter().collect()
}

/// A place with its line and a caret below it, and what to do.
fn assert_placed(message: &str) {
    let lines: Vec<&str> = message.lines().collect();
    assert!(lines.len() == 4 && lines[2].ends_with('^'), "{message}");
}

/// The planning table of a random graph over a table.
fn planning_table(random: &mut Xorshift, table: &Table) -> (Vec<Row>, Vec<NodeBytes>) {
    let shape = Shape::small(random, 8, 4).ranged(random, Ranges::Present);
    let record = record::write(&random::graph(random, table.n, &shape));
    exported(table, &record)
}

#[test]
fn a_damaged_planning_table_is_read_or_has_a_place() {
    const PIECES: [&str; 16] = [
        ",",
        ";",
        "\t",
        "\"",
        "\n",
        "\r",
        " ",
        "0",
        "3",
        "64",
        "256",
        "-",
        "top",
        "é",
        "node,type",
        "parent,feature,target",
    ];
    let mut random = Xorshift::stored(36);
    let table = Table::from_bytes(&random::diamond().bytes);
    let (mut read, mut refused) = (0, 0);
    for _ in 0..10_000 {
        let (rows, nodes) = planning_table(&mut random, &table);
        let parts = [
            planning::nodes(&table, &nodes),
            planning::links(&table, &rows),
        ];
        let mut files = parts.map(|csv| File::new("part", &csv)).to_vec();
        let file = random.choose(&[0, 1]);
        files[*file] = File::new(
            "damaged",
            &damaged(&mut random, &files[*file].text, &PIECES),
        );
        match planning::read(&table, files) {
            Ok(_) => read += 1,
            Err(message) => {
                refused += 1;
                assert_placed(&message);
            }
        }
    }
    let enough = read > 300 && refused > 5_000;
    assert!(enough || !random::is_stored(), "{read} {refused}");
}

#[test]
fn a_refused_planning_table_has_its_cause_told() {
    let folder = folder("damaged-planning");
    let mut random = Xorshift::stored(37);
    let mut refused = [0; 16];
    for _ in 0..3_000 {
        let bytes = random::valid_table(&mut random).bytes;
        let table = Table::from_bytes(&bytes);
        let (mut rows, mut nodes) = planning_table(&mut random, &table);
        for _ in 0..random.pick(3) {
            damage(&mut random, &table, &mut rows, &mut nodes);
        }
        random.shuffle(&mut rows);
        let (nodes, links) = (
            planning::nodes(&table, &nodes),
            planning::links(&table, &rows),
        );
        let file = stored(&folder, "table", &bytes);
        let nodes = stored(&folder, "nodes", nodes.as_bytes());
        let links = stored(&folder, "links", links.as_bytes());
        let (status, message) = told(&["import", &file, &nodes, &links]);
        assert_explained(status, &message);
        let number = message.strip_prefix("refused ");
        let number = number.and_then(|rest| rest.split([' ', ':']).next());
        refused[number.map_or(0, |number| number.parse().expect("a number"))] += 1;
        if let Some((_, cause)) = message.split_once('\n') {
            assert_placed(cause);
        }
    }
    let met = [0, 4, 5, 6, 7, 14, 15];
    let enough = met.iter().all(|&number| refused[number] > 50);
    assert!(enough || !random::is_stored(), "{refused:?}");
    assert_eq!(
        refused.iter().sum::<u32>(),
        met.map(|number| refused[number]).iter().sum()
    );
}

/// Makes a planning table say what may be refused.
fn damage(random: &mut Xorshift, table: &Table, rows: &mut Vec<Row>, nodes: &mut Vec<NodeBytes>) {
    let node = random.pick(nodes.len().max(1));
    match random.pick(8) {
        0 => nodes.clear(),
        1 if !nodes.is_empty() => nodes[node][0] = random.byte(),
        2 if !nodes.is_empty() => nodes[node][1..].reverse(),
        3 => nodes.push([table.top(), 0, 255]),
        4 => rows.push(Row {
            parent: random.pick(nodes.len() + 1) as u8,
            feature: random.pick(66) as u8,
            target: random.pick(nodes.len() + 1) as u8,
        }),
        _ if rows.is_empty() => {}
        5 => rows.push(*random.choose(rows)),
        6 => {
            let place = random.pick(rows.len());
            rows.swap_remove(place);
        }
        _ => {
            let place = random.pick(rows.len());
            rows[place].target = node as u8;
        }
    }
}
