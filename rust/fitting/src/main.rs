//! The program `fitting`. It takes arguments, runs a command, and prints what the command tells.

use std::io;
use std::process::ExitCode;

fn main() -> ExitCode {
    let arguments: Option<Vec<String>> = std::env::args_os()
        .skip(1)
        .map(|argument| argument.into_string().ok())
        .collect();
    let Some(arguments) = arguments else {
        eprintln!("fitting: an argument is no UTF-8 text; rename the file");
        return ExitCode::from(2);
    };
    let status = fitting::run(
        &arguments,
        &mut io::stdout().lock(),
        &mut io::stderr().lock(),
    );
    ExitCode::from(status)
}
