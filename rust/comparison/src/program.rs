//! Runs the program `mapcalc`.

use std::io::Write;
use std::path::{Path, PathBuf};
use std::process::{Command, Stdio};

/// Where `rt ci` and `rt run` put the program `mapcalc`.
pub fn path() -> PathBuf {
    built("mapcalc")
}

/// Where `rt ci` and `rt run` put a program.
pub fn built(program: &str) -> PathBuf {
    let crates = Path::new(env!("CARGO_MANIFEST_DIR")).join("../../crates");
    crates.join(program).join("out").join(program)
}

/// The line that the program prints for an input, without its line end. Panics if the program
/// fails or prints anything but one line.
pub fn run(program: &Path, input: &[u8]) -> String {
    let mut child = Command::new(program)
        .stdin(Stdio::piped())
        .stdout(Stdio::piped())
        .spawn()
        .unwrap_or_else(|error| {
            panic!(
                "{}: {error}; run `rt run` in crates/mapcalc first",
                program.display()
            )
        });
    let mut stdin = child.stdin.take().expect("a pipe");
    // The program may end before it has read all of a bad input.
    let _ = stdin.write_all(input);
    drop(stdin);
    let output = child.wait_with_output().expect("the program ends");
    assert!(output.status.success(), "{}", output.status);
    let text = String::from_utf8(output.stdout).expect("text");
    let line = text.strip_suffix('\n').expect("a line end");
    assert!(!line.contains('\n'), "more than one line: {text}");
    line.to_string()
}
