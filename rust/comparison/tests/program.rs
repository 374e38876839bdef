//! The program `mapcalc`: its stored lines, and many random inputs against the
//! reference, each by a run of the program.

use comparison::cases::cases;
use comparison::program::{built, path, run};
use reference::mapcalc;
use reference::random::{self, Ranges, Xorshift};
use std::collections::BTreeMap;
use std::fs::File;
use std::io::Write;
use std::process::{Command, Stdio};
use std::thread;

/// A name, an input in hexadecimal and a line, in turn.
const STORED: &str = include_str!("../cases.txt");

#[test]
fn the_stored_lines() {
    let mut lines = STORED.lines();
    let mut count = 0;
    for case in cases() {
        assert_eq!(lines.next(), Some(format!("# {}", case.name).as_str()));
        let digits: String = case
            .input
            .iter()
            .map(|byte| format!("{byte:02x}"))
            .collect();
        assert_eq!(lines.next(), Some(digits.as_str()), "{}", case.name);
        let line = lines.next().expect("a stored line");
        assert_eq!(run(&path(), &case.input), line, "{}", case.name);
        assert_eq!(mapcalc::line(&case.input), line, "{}", case.name);
        count += 1;
    }
    assert_eq!(lines.next(), None);
    assert!(count >= 111, "{count} cases");
}

#[test]
fn every_line_is_stored() {
    let lines: Vec<&str> = STORED.lines().skip(2).step_by(3).collect();
    for kind in kinds() {
        assert!(lines.iter().any(|line| kind_of(line) == kind), "{kind}");
    }
    assert!(lines.contains(&"ok 20 0203010000000000000001010000000000000000"));
    // Every kind of line that a range can bring about comes from one.
    let with_ranges = STORED
        .split("# ")
        .filter(|case| case.starts_with("ranges: "));
    let lines: Vec<&str> = with_ranges.filter_map(|case| case.lines().nth(2)).collect();
    for kind in [
        "ok",
        "same",
        "under",
        "above",
        "neither",
        "refused 9",
        "refused 10",
    ] {
        assert!(lines.iter().any(|line| kind_of(line) == kind), "{kind}");
    }
    assert!(lines.iter().any(|line| line.starts_with("ok 4854 ")));
}

#[test]
fn input_without_end_is_bad() {
    let mut child = Command::new(path())
        .stdin(Stdio::piped())
        .stdout(Stdio::piped())
        .spawn()
        .expect("the program");
    let mut stdin = child.stdin.take().expect("a pipe");
    // Writes until the program, which reads no further than can matter, has ended.
    let writer = thread::spawn(move || {
        let mut blocks = 0;
        while stdin.write_all(&[1; 4096]).is_ok() {
            blocks += 1;
        }
        blocks
    });
    let output = child.wait_with_output().expect("the program ends");
    assert_eq!(output.stdout, b"bad input\n");
    // What was taken is the program's 18,431 bytes and what the pipe holds.
    assert!(writer.join().expect("a writer") < 1_000);
}

#[test]
fn a_line_that_cannot_be_written_is_told() {
    for program in ["mapcalc", "house_types"] {
        let full = File::create("/dev/full").expect("a device that takes no byte");
        let output = Command::new(built(program))
            .stdin(Stdio::null())
            .stdout(full)
            .output()
            .expect("the program ends");
        let error = String::from_utf8(output.stderr).expect("text");
        let told = format!("{program}: the ");
        assert!(error.starts_with(&told), "{program}: {error}");
        assert!(
            error.ends_with(" cannot be written\n"),
            "{program}: {error}"
        );
        // The exit status says nothing.
        assert!(output.status.success(), "{program}: {}", output.status);
    }
}

/// How many threads run the program, and on how many inputs together. Each input is a
/// process; the calls themselves are compared on more (`pairs.rs`, `rewrite.rs`).
const THREADS: u64 = 4;
const INPUTS: usize = 5_000;

/// Every line that the program can print but those with a record, which are `ok`
/// here. 8 does not come: the program lends as many bytes as the longest record has.
fn kinds() -> Vec<String> {
    let mut kinds = ["ok", "same", "under", "above", "neither", "bad input"]
        .map(str::to_string)
        .to_vec();
    kinds.extend([1, 2, 3, 9, 10, 11, 12, 13].map(|number| format!("refused {number}")));
    for side in ["first", "second"] {
        kinds.extend([4, 5, 6, 7].map(|number| format!("refused {number} {side}")));
    }
    kinds
}

/// The kind of a line.
fn kind_of(line: &str) -> &str {
    if line.starts_with("ok ") { "ok" } else { line }
}

/// Runs inputs of one seed; gives how often each kind of line came.
fn compare(seed: u64, ranges: Ranges) -> BTreeMap<String, usize> {
    let random = &mut Xorshift::stored(seed);
    let mut counts = BTreeMap::new();
    for _ in 0..INPUTS / THREADS as usize {
        let input = random::mapcalc_input(random, ranges);
        let line = mapcalc::line(&input);
        assert_eq!(run(&path(), &input), line, "{input:?}");
        *counts.entry(kind_of(&line).to_string()).or_insert(0) += 1;
    }
    counts
}

#[test]
fn random_requests() {
    compare_requests(60, Ranges::Absent);
}

#[test]
fn random_requests_with_ranges() {
    compare_requests(70, Ranges::Present);
}

fn compare_requests(seed: u64, ranges: Ranges) {
    let threads: Vec<_> = (0..THREADS)
        .map(|thread| thread::spawn(move || compare(seed + thread, ranges)))
        .collect();
    let mut counts = BTreeMap::new();
    for thread in threads {
        for (kind, count) in thread.join().expect("no disagreement") {
            *counts.entry(kind).or_insert(0) += count;
        }
    }
    // Every kind comes from the stored seeds, and from no seed another line.
    for kind in kinds() {
        let least = if kind.starts_with("refused") { 1 } else { 100 };
        let count = counts.remove(&kind).unwrap_or(0);
        let enough = count >= least || !random::is_stored();
        assert!(enough, "{kind}: {count}");
    }
    assert_eq!(counts, BTreeMap::new());
}
