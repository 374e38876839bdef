//! Makes pictures from DOT with Graphviz's program `dot`. Nothing else in the tool needs `dot`.

use crate::failure::Failure;
use crate::output;
use std::io::{self, ErrorKind, Write};
use std::process::{Child, Command, Output, Stdio};
use std::thread;

/// The endings of file names for which `dot` makes pictures.
const FORMATS: [&str; 3] = ["svg", "png", "pdf"];

/// Writes a picture. The ending of the file's name tells the format. A file that ends in `.dot`
/// gets the DOT text itself.
pub fn draw(dot: &str, file: &str) -> Result<(), Failure> {
    let ending = file.rsplit_once('.').map_or("", |(_, ending)| ending);
    if ending == "dot" {
        return output::write(file, dot.as_bytes());
    }
    if !FORMATS.contains(&ending) {
        return Err(Failure::usage(format!(
            "the ending of {file} tells no picture: .svg, .png, .pdf, or .dot for DOT text"
        )));
    }
    let picture = rendered(dot, ending).map_err(|error| match error.kind() {
        ErrorKind::NotFound => Failure::usage(format!(
            "{file} is drawn by `dot` of Graphviz, which is not installed\n  \
             install it (Debian, Ubuntu: apt-get install graphviz), or leave `-o {file}` out and \
             hand the DOT text to another program"
        )),
        _ => Failure::usage(format!("cannot draw {file}: {error}")),
    })?;
    output::write(file, &picture)
}

/// The picture that `dot` makes of a DOT text. The error is of the kind `NotFound` if the program
/// is not installed.
pub fn rendered(dot: &str, format: &str) -> io::Result<Vec<u8>> {
    let child = Command::new("dot")
        .arg(format!("-T{format}"))
        .stdin(Stdio::piped())
        .stdout(Stdio::piped())
        .spawn()?;
    let Output { status, stdout, .. } = output(child, dot)?;
    match status.success() {
        true => Ok(stdout),
        // The program itself has told what went wrong.
        false => Err(io::Error::other(format!("`dot` fails ({status})"))),
    }
}

/// What a program writes when it gets a text as its input.
fn output(mut child: Child, text: &str) -> io::Result<Output> {
    let stdin = child.stdin.take();
    thread::scope(|scope| {
        // If the program does not read its input, its exit status tells so.
        scope.spawn(move || stdin.map(|mut stdin| stdin.write_all(text.as_bytes())));
        child.wait_with_output()
    })
}
