//! Records as bytes in pipes and files, and pictures by the program `dot`, by a stand-in for it, or
//! without it.

mod tool;

use std::fs;
use std::os::unix::fs::PermissionsExt;
use std::path::Path;
use std::process::Command;
use tool::{folder, output, tool};

const TABLE: &str = "examples/fitting/diamond.table";
const SPECIFIC: &str = "examples/fitting/specific.txt";

/// Case 7's result.
const DIFFERENCE: [u8; 20] = [2, 3, 1, 0, 0, 0, 0, 0, 0, 0, 1, 1, 0, 0, 0, 0, 0, 0, 0, 0];

#[test]
fn records_go_through_pipes() {
    let folder = folder("pipes");
    let made = output(
        tool(&folder, &["make", TABLE, "-", "-o", "-"]),
        b"top[0: a]",
    );
    assert_eq!(made.stdout, DIFFERENCE);
    let shown = output(tool(&folder, &["show", TABLE, "-"]), &made.stdout);
    assert_eq!(shown.stdout, b"top[0: a]\n# table 13b73695-ec9ffafb\n");
    let table = tool(&folder, &["check", "-"]);
    let told = output(table, &[1, 0, 0, 0, 0, 0, 0, 0, 3, 0, 0, 0, 0, 0, 0, 0]);
    assert_eq!(
        told.stdout,
        b"standard input: accepted, a table of 2 types, fingerprint cc5cdd27\n"
    );
}

#[test]
fn results_are_written_as_records() {
    let folder = folder("results");
    let [p, r] = ["examples/fitting/p.txt", "examples/fitting/r.txt"];
    let told = output(tool(&folder, &["difference", TABLE, p, r, "-o", "d"]), b"");
    assert!(told.status.success() && told.stdout.is_empty());
    let written = fs::read(folder.join("d")).expect("the record is written");
    assert_eq!(written, DIFFERENCE);
    // An order is no record: its words are written.
    let told = output(tool(&folder, &["order", TABLE, r, r, "-o", "o"]), b"");
    assert!(told.status.success() && told.stdout.is_empty());
    let written = fs::read(folder.join("o")).expect("the words are written");
    assert_eq!(written, b"same\n");
}

/// Runs a line of the shell in a folder, with the tool as `$0`.
fn shell(folder: &Path, line: &str) -> std::process::Output {
    let mut command = Command::new("sh");
    command.current_dir(folder).args(["-c", line]);
    command.arg(env!("CARGO_BIN_EXE_fitting"));
    output(command, b"")
}

/// The names in a folder but those that every test's folder has.
fn names(folder: &Path) -> Vec<String> {
    let files = fs::read_dir(folder).expect("a folder").flatten();
    let names = files.filter_map(|file| file.file_name().into_string().ok());
    let mut names: Vec<String> = names.filter(|n| n != "examples" && n != "target").collect();
    names.sort();
    names
}

#[test]
fn a_failure_leaves_the_old_file() {
    let folder = folder("old-file");
    fs::write(folder.join("R"), "what was there").expect("written");
    // No file may have a byte, and a write that is too long is an error.
    let limited = format!("ulimit -f 0; trap '' XFSZ; \"$0\" make {TABLE} {SPECIFIC} -o R");
    let told = shell(&folder, &limited);
    assert_eq!(told.status.code(), Some(2));
    let error = String::from_utf8(told.stderr).expect("text");
    assert!(error.starts_with("fitting: cannot write R: "), "{error}");
    let left = fs::read_to_string(folder.join("R")).expect("the old file");
    assert_eq!(left, "what was there");
    // A picture that `dot` fails at leaves the old one too.
    fs::write(folder.join("s.svg"), "a picture").expect("written");
    stand_in(&folder, "echo half; exit 1");
    let told = drawn(&folder, &folder.join("target"), "s.svg");
    assert_eq!(told.status.code(), Some(2));
    let left = fs::read_to_string(folder.join("s.svg")).expect("the old file");
    assert_eq!(left, "a picture");
    // Nothing lies about.
    assert_eq!(names(&folder), ["R", "s.svg"]);
}

#[test]
fn a_file_is_replaced_and_keeps_its_permissions() {
    let folder = folder("replaced");
    fs::write(folder.join("r"), "old").expect("written");
    fs::set_permissions(folder.join("r"), fs::Permissions::from_mode(0o640)).expect("changed");
    std::os::unix::fs::symlink("r", folder.join("link")).expect("a link can be made");
    let told = output(tool(&folder, &["make", TABLE, SPECIFIC, "-o", "link"]), b"");
    assert!(told.status.success());
    // The link is a link still, and the file that it leads to is new.
    let link = fs::symlink_metadata(folder.join("link")).expect("it is there");
    assert!(link.is_symlink());
    assert_eq!(fs::read(folder.join("r")).expect("written")[0], 2);
    let mode = fs::metadata(folder.join("r"))
        .expect("it is there")
        .permissions();
    assert_eq!(mode.mode() & 0o777, 0o640);
    assert_eq!(names(&folder), ["link", "r"]);
    // A device is written to, and stays one.
    let null = shell(
        &folder,
        &format!("\"$0\" make {TABLE} {SPECIFIC} -o /dev/null"),
    );
    assert!(null.status.success());
    let full = shell(
        &folder,
        &format!("\"$0\" make {TABLE} {SPECIFIC} -o /dev/full"),
    );
    let error = String::from_utf8(full.stderr).expect("text");
    assert!(
        error.starts_with("fitting: cannot write /dev/full: "),
        "{error}"
    );
    assert!(!fs::metadata("/dev/null").expect("a device").is_file());
    // `rt ci` refuses a checkout that has a link.
    fs::remove_file(folder.join("link")).expect("the link is removed");
}

#[test]
fn a_text_with_a_mark_of_byte_order_is_read() {
    let folder = folder("mark");
    let told = output(
        tool(&folder, &["show", TABLE, "-"]),
        "\u{feff}a\r\n".as_bytes(),
    );
    assert_eq!(told.stdout, b"a\n# table 13b73695-ec9ffafb\n");
}

#[test]
fn an_endless_input_is_not_read_to_its_end() {
    let folder = folder("endless");
    let told = output(tool(&folder, &["check", TABLE, "/dev/zero"]), b"");
    assert_eq!(told.status.code(), Some(2));
    let error = String::from_utf8(told.stderr).expect("text");
    assert!(
        error.starts_with("fitting: /dev/zero is longer than 1048576 bytes"),
        "{error}"
    );
}

#[test]
fn a_reader_that_has_enough_is_no_error() {
    let folder = folder("closed");
    let mut command = tool(&folder, &["show", TABLE, SPECIFIC]);
    let piped = command
        .stdout(std::process::Stdio::piped())
        .stderr(std::process::Stdio::piped());
    let mut child = piped.spawn().expect("the tool runs");
    drop(child.stdout.take());
    let told = child.wait_with_output().expect("the tool ends");
    assert_eq!(String::from_utf8_lossy(&told.stderr), "");
    assert!(told.status.success());
}

/// The tool asked for a picture, with a folder as the only one in which programs are found.
fn drawn(folder: &Path, programs: &Path, picture: &str) -> std::process::Output {
    let mut command = tool(folder, &["draw", TABLE, SPECIFIC, "-o", picture]);
    command.env("PATH", programs);
    output(command, b"")
}

#[test]
fn without_dot_a_picture_is_refused() {
    let folder = folder("no-dot");
    let told = drawn(&folder, &folder.join("target"), "s.svg");
    assert_eq!(told.status.code(), Some(2));
    let error = String::from_utf8(told.stderr).expect("text");
    assert!(
        error.contains("`dot` of Graphviz, which is not installed"),
        "{error}"
    );
    assert!(error.contains("apt-get install graphviz"), "{error}");
    assert!(!folder.join("s.svg").exists());
}

/// A program `dot` of this text, in a folder of its own.
fn stand_in(folder: &Path, script: &str) {
    let program = folder.join("target/dot");
    fs::write(&program, format!("#!/bin/sh\n{script}\n")).expect("it can be written");
    fs::set_permissions(&program, fs::Permissions::from_mode(0o755)).expect("it can be run");
}

#[test]
fn dot_is_given_the_text_and_the_format() {
    let folder = folder("dot");
    // Only what the shell has itself: its words, then all lines of its input.
    let script = "echo \"$@\"; while read -r line; do echo \"$line\"; done";
    stand_in(&folder, script);
    let told = drawn(&folder, &folder.join("target"), "s.svg");
    assert!(
        told.status.success(),
        "{}",
        String::from_utf8_lossy(&told.stderr)
    );
    let given = fs::read_to_string(folder.join("s.svg")).expect("the picture is written");
    assert!(given.starts_with("-Tsvg\ndigraph fitting {\n"), "{given}");
    assert!(given.ends_with("n0_2 -> n1 [weight=8];\n}\n"), "{given}");
}

#[test]
fn a_dot_that_fails_is_told() {
    let folder = folder("dot-fails");
    stand_in(&folder, "exit 3");
    let told = drawn(&folder, &folder.join("target"), "s.png");
    assert_eq!(told.status.code(), Some(2));
    let error = String::from_utf8(told.stderr).expect("text");
    assert!(error.contains("cannot draw s.png: `dot` fails"), "{error}");
}
