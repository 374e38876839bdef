//! Runs the tool by a session file, in a folder of its own, and compares what the tool prints with
//! the file. A session is a text of steps:
//!
//!     ## a comment
//!     $ file NAME                the lines that follow are the file's text
//!     $ bytes NAME               the lines that follow are its bytes, in hexadecimal
//!     $ folder NAME              an empty folder
//!     $ link NAME TO             another name for a file or a folder
//!     $ fitting ARGUMENTS        the lines that follow are what the tool reads and tells:
//!     < a line of standard input
//!     a line of standard output
//!     ! a line of standard error
//!     ? the exit status, where it is not 0
//!
//! The folder has `examples` as the root of the repository does. With `UPDATE_GOLDEN=1` in the
//! environment, the session is stored again with the tool's answers.

use crate::tool::{folder, output, tool};
use std::path::Path;
use std::{env, fs};

/// A step: comments and blank lines before it, what stands behind `$`, and its lines.
struct Step<'a> {
    gap: Vec<&'a str>,
    words: &'a str,
    lines: Vec<&'a str>,
}

/// The steps of a session; the last has no words but what follows the others.
fn steps(session: &str) -> Vec<Step<'_>> {
    let mut steps: Vec<Step> = Vec::new();
    let mut lines: Vec<&str> = Vec::new();
    for line in session.lines() {
        match line.strip_prefix("$ ") {
            None => lines.push(line),
            Some(words) => {
                let gap = gap(&mut lines);
                if let Some(step) = steps.last_mut() {
                    step.lines = std::mem::take(&mut lines);
                }
                steps.push(Step {
                    gap,
                    words,
                    lines: Vec::new(),
                });
            }
        }
    }
    let gap = gap(&mut lines);
    assert!(gap.is_empty(), "a session ends with the lines of a step");
    steps.last_mut().expect("a session has steps").lines = lines;
    steps
}

/// Takes the comments and blank lines off the end.
fn gap<'a>(lines: &mut Vec<&'a str>) -> Vec<&'a str> {
    let is_gap = |line: &&&str| line.is_empty() || line.starts_with("##");
    let gap = lines.iter().rev().take_while(is_gap).count();
    lines.split_off(lines.len() - gap)
}

/// Runs a session of `tests/golden`; the number of the tool's runs in it.
pub fn run(name: &str) -> usize {
    run_in(name, &folder(name))
}

/// Runs a session of `tests/golden` in a folder; the number of the tool's runs in it.
pub fn run_in(name: &str, folder: &Path) -> usize {
    let file = Path::new(env!("CARGO_MANIFEST_DIR")).join(format!("tests/golden/{name}.session"));
    let session = fs::read_to_string(&file).expect("the session is stored");
    let mut runs = 0;
    let mut told = Vec::new();
    let mut differences = Vec::new();
    for Step { gap, words, lines } in steps(&session) {
        told.extend(gap.iter().map(|line| line.to_string()));
        told.push(format!("$ {words}"));
        let lines: Vec<String> = lines.iter().map(|line| line.to_string()).collect();
        let text: String = lines.iter().map(|line| format!("{line}\n")).collect();
        let words: Vec<&str> = words.split_whitespace().collect();
        match words[..] {
            ["file", name] => fs::write(folder.join(name), text).expect("a file can be written"),
            ["bytes", name] => {
                fs::write(folder.join(name), hexadecimal(&text)).expect("a file can be written");
            }
            ["folder", name] => {
                fs::create_dir_all(folder.join(name)).expect("a folder can be made");
            }
            ["link", name, to] => {
                std::os::unix::fs::symlink(to, folder.join(name)).expect("a link can be made");
            }
            ["fitting", ref arguments @ ..] => {
                runs += 1;
                let answer = answer(folder, arguments, &lines);
                if answer != lines {
                    let (stored, answer) = (lines.join("\n"), answer.join("\n"));
                    let words = words.join(" ");
                    differences.push(format!("$ {words}\n{stored}\n--- is told as\n{answer}\n"));
                }
                told.extend(answer);
                continue;
            }
            _ => panic!("no step: {}", words.join(" ")),
        }
        told.extend(lines);
    }
    if env::var_os("UPDATE_GOLDEN").is_some() {
        fs::write(&file, told.join("\n") + "\n").expect("the session can be stored");
    } else {
        assert!(differences.is_empty(), "{}", differences.join("\n"));
    }
    runs
}

/// The lines of a run of the tool: those that it reads, as stored, and those that it tells.
fn answer(folder: &Path, arguments: &[&str], stored: &[String]) -> Vec<String> {
    let read = stored.iter().filter(|line| line.starts_with("< "));
    let mut lines: Vec<String> = read.cloned().collect();
    let input: String = lines
        .iter()
        .map(|line| format!("{}\n", &line[2..]))
        .collect();
    let mut command = tool(folder, arguments);
    // No program is found: a session is the same where `dot` is installed.
    command.env("PATH", folder.join("target"));
    let output = output(command, input.as_bytes());
    let text = |bytes: Vec<u8>| String::from_utf8(bytes).expect("the tool prints text");
    lines.extend(text(output.stdout).lines().map(str::to_string));
    lines.extend(text(output.stderr).lines().map(|line| format!("! {line}")));
    let status = output.status.code().expect("the tool ends by itself");
    if status != 0 {
        lines.push(format!("? {status}"));
    }
    lines
}

/// The bytes of hexadecimal digits; blanks do not count.
fn hexadecimal(digits: &str) -> Vec<u8> {
    let digits: Vec<u32> = digits
        .chars()
        .filter(|digit| !digit.is_whitespace())
        .map(|digit| digit.to_digit(16).expect("a hexadecimal digit"))
        .collect();
    assert!(digits.len().is_multiple_of(2), "half a byte is left over");
    digits
        .chunks(2)
        .map(|pair| (16 * pair[0] + pair[1]) as u8)
        .collect()
}
