//! `table`: prints a table as text, writes its bytes as a file or as source, and tells its
//! fingerprint.

use super::{Told, put};
use crate::command::arguments::Arguments;
use crate::failure::Failure;
use crate::input;
use crate::table::Table;

pub fn table(table: &Table, arguments: &Arguments) -> Result<Told, Failure> {
    let name = input::name(&arguments.operands[0]);
    let forms = ["--c", "--rust", "--fingerprint"];
    let asked: Vec<&str> = forms
        .into_iter()
        .filter(|form| arguments.has(form))
        .collect();
    let output = arguments.output();
    let result = match (&asked[..], output) {
        ([], None) => table.text().into_bytes(),
        ([], Some(_)) => table.bytes.clone(),
        (["--c"], _) => table.c(name).into_bytes(),
        (["--rust"], _) => table.rust(name).into_bytes(),
        (["--fingerprint"], _) => format!("{}\n", table.fingerprint()).into_bytes(),
        _ => {
            let what = format!("`{}` are two answers: ask for one", asked.join("` and `"));
            return Err(arguments.misused(&what));
        }
    };
    put(output.unwrap_or("-"), result)
}
