//! Prints the cases of the program `mapcalc` as they are stored: for each case its name, its
//! input in hexadecimal, and the line that the program prints. The argument is the path of the
//! program.

use comparison::cases::cases;
use comparison::program::run;
use std::env;
use std::path::Path;

fn main() {
    let path = env::args().nth(1).expect("the path of the program");
    for case in cases() {
        let line = run(Path::new(&path), &case.input);
        let digits: String = case
            .input
            .iter()
            .map(|byte| format!("{byte:02x}"))
            .collect();
        println!("# {}\n{digits}\n{line}", case.name);
    }
}
