//! The examples of the help, and the pictures of docs/FITTING.md, work in the root of the repository.
//! In these tests a folder of the test stands for the root. scripts/check-documents runs the other
//! commands of the documents.

mod tool;

use std::fs;
use std::path::Path;
use tool::{folder, output, tool};

const SUBJECTS: [&str; 22] = [
    "text",
    "json",
    "check",
    "show",
    "make",
    "draw",
    "order",
    "compare",
    "same",
    "common",
    "combine",
    "difference",
    "report",
    "list",
    "import",
    "export",
    "pack",
    "versions",
    "unpack",
    "put",
    "drop",
    "table",
];

#[test]
fn the_examples_of_the_help_work() {
    let folder = folder("examples");
    for subject in SUBJECTS {
        let help = output(tool(&folder, &["help", subject]), b"");
        let help = String::from_utf8(help.stdout).expect("the help is text");
        let examples: Vec<&str> = help
            .lines()
            .filter_map(|l| l.strip_prefix("  $ fitting "))
            .collect();
        assert!(
            !examples.is_empty(),
            "the help about {subject:?} has an example"
        );
        for example in examples {
            let arguments: Vec<&str> = example.split(' ').collect();
            let told = output(tool(&folder, &arguments), b"");
            let error = String::from_utf8_lossy(&told.stderr);
            assert!(told.status.success(), "fitting {example}\n{error}");
            // `make` writes a file instead.
            assert_eq!(
                told.stdout.is_empty(),
                subject == "make",
                "fitting {example}"
            );
        }
    }
}

#[test]
fn the_pictures_of_the_guide_are_made() {
    let folder = folder("guide");
    let guide = Path::new(env!("CARGO_MANIFEST_DIR")).join("../../docs/FITTING.md");
    let guide = fs::read_to_string(guide).expect("the guide is text");
    let mut commands = Vec::new();
    for line in guide.lines() {
        let line = line.strip_prefix("$ ").unwrap_or(line);
        let words = line.strip_prefix("fitting ").unwrap_or_default().split(' ');
        // A picture needs `dot`: DOT text does not. A page is printed as well.
        let is_stored = |word: &&str| word.ends_with(".svg") || word.ends_with(".html");
        let mut arguments: Vec<&str> = words.filter(|word| !is_stored(word)).collect();
        let begin = match arguments[0] {
            "make" => "",
            "draw" => "digraph fitting {\n",
            "report" => "<!DOCTYPE html>\n",
            _ => continue,
        };
        if !begin.is_empty() {
            assert_eq!(arguments.pop(), Some("-o"));
        }
        let told = output(tool(&folder, &arguments), b"");
        let error = String::from_utf8_lossy(&told.stderr);
        assert!(told.status.success(), "{arguments:?}\n{error}");
        let text = String::from_utf8(told.stdout).expect("text");
        assert!(text.starts_with(begin), "{text}");
        commands.push(arguments[0].to_string());
    }
    assert_eq!(commands, ["make", "draw", "report", "draw", "draw"]);
}

#[test]
fn the_planning_table_of_the_program_is_stored() {
    let folder = folder("planning");
    let table = "examples/fitting/device.table";
    let program = "examples/fitting/program.txt";
    let files = ["nodes", "links"].map(|part| format!("examples/fitting/program-{part}.csv"));
    let told = |arguments: &[&str]| {
        let told = output(tool(&folder, arguments), b"");
        let error = String::from_utf8_lossy(&told.stderr);
        assert!(told.status.success(), "{arguments:?}\n{error}");
        told.stdout
    };
    let [nodes, links] = files
        .clone()
        .map(|file| fs::read_to_string(folder.join(file)));
    let stored = format!("{}\n{}", nodes.expect("nodes"), links.expect("links"));
    assert_eq!(told(&["export", table, program]), stored.as_bytes());
    let made = told(&["make", table, program, "-o", "-"]);
    let [nodes, links] = &files;
    assert_eq!(told(&["import", table, nodes, links, "-o", "-"]), made);
}
