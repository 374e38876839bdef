//! Measures what every call of the library costs, by the engine and by the peer, which makes the
//! same calls in fast Rust. The commands
//!
//!     (cd crates/record_engine && rt lib)
//!     cargo run --release --offline --manifest-path rust/Cargo.toml -p benchmark
//!
//! measure all rows. This takes some four minutes on a machine that has nothing else to do. A row
//! has a name, which tells the call, the types and the nodes. Words behind `--` pick the rows whose
//! names contain one of the words. For example,
//!
//!     cargo run --release --offline --manifest-path rust/Cargo.toml -p benchmark -- "common part, 64 house" stack
//!
//! measures the common parts over the house types, and the stack. An option may come before the
//! words. `--instructions` leaves out the times, so that the run takes half a minute. `--each-byte`
//! leaves out the times too, and counts bytes as valgrind does by itself. `--list` only prints the
//! names. For each row the program prints
//!
//! - the instructions of a call, if valgrind is installed. The counts of two runs are equal up to
//!   some tens of instructions, which depend on where the stack begins. Clearing and copying many
//!   bytes counts as the vector stores that it takes. By itself valgrind counts an instruction for
//!   each of more than 2,048 bytes, which a processor does not take. For the marks of a common part
//!   alone, that would be 65,025 instructions;
//! - the time of a call: the least of many runs in which engine and peer take turns.
//!
//! Then the program prints what each node costs, what opening 64 types costs, the means of the
//! ratios, the worst rows, and the stack that calls take. The five operations are measured over five
//! tables: the diamond, the 64 subsets of six atoms, the 64 house types, a chain of 64 types, and 64
//! rivals, which are not distributive and whose numbers do not follow their order. The graphs have 8,
//! 40, 100 and 255 nodes with some two links a node, and 255 nodes with 2,048 links. The other calls
//! are measured over two tables and two sizes. Before it measures, the program checks that the
//! engine and the peer give the same answer and the same bytes in every row.
//!
//! `nltk_unify.py` in this package times unification by NLTK on structures of the same shape.

mod calls;
mod inputs;
mod instructions;
mod report;
mod rows;
mod stack;
mod stores;
mod times;

use report::Measured;
use rows::Row;
use std::env;
use std::process::ExitCode;

/// The word that picks the stack.
const STACK: &str = "stack";

/// The options that leave out the times. With the second, valgrind counts each byte that is
/// cleared or copied.
const INSTRUCTIONS: &str = "--instructions";
const EACH_BYTE: &str = "--each-byte";

fn main() -> ExitCode {
    let mut words: Vec<String> = env::args().skip(1).collect();
    let option = words.first().filter(|word| word.starts_with("--")).cloned();
    if option.is_some() {
        words.remove(0);
    }
    let rows = picked(&words);
    match option.as_deref() {
        Some("--list") => rows.iter().for_each(|row| println!("{}", row.name())),
        Some(instructions::COUNTED) => instructions::run(&rows),
        Some(option) if option != INSTRUCTIONS && option != EACH_BYTE => {
            eprintln!("use: benchmark [--instructions | --each-byte | --list] [WORD...]");
            return ExitCode::FAILURE;
        }
        _ if rows.is_empty() && !is_picked(&words, STACK) => {
            eprintln!("no row has such a name; --list tells the names");
            return ExitCode::FAILURE;
        }
        option => measure(&words, &rows, option),
    }
    ExitCode::SUCCESS
}

/// The rows that words pick, sorted by call; all rows if there are no words.
fn picked(words: &[String]) -> Vec<Row> {
    let tables = inputs::tables();
    let mut rows = calls::rows(&tables);
    rows.extend(stores::rows(&tables));
    // First the operations, then the other calls in the order of the rows.
    let mut order: Vec<&'static str> = calls::OPERATIONS.to_vec();
    for row in &rows {
        if !order.contains(&row.call) {
            order.push(row.call);
        }
    }
    rows.sort_by_key(|row| order.iter().position(|&call| call == row.call));
    rows.retain(|row| is_picked(words, &row.name()));
    rows
}

fn is_picked(words: &[String], name: &str) -> bool {
    words.is_empty() || words.iter().any(|word| name.contains(word.as_str()))
}

fn measure(words: &[String], rows: &[Row], option: Option<&str>) {
    rows.iter().for_each(Row::check);
    if !rows.is_empty() {
        let counts = instructions::count(words, rows, option == Some(EACH_BYTE));
        if counts.is_none() {
            println!("valgrind is not there: no instructions are counted\n");
        }
        report::print_head();
        let mut all = Vec::new();
        for (place, row) in rows.iter().enumerate() {
            let measured = Measured {
                row,
                instructions: counts.as_ref().map(|counts| counts[place]),
                times: option.is_none().then(|| times::time(row)),
            };
            report::print_row(&measured);
            all.push(measured);
        }
        report::print_all(&all);
    }
    if is_picked(words, STACK) {
        stack::print(&calls::stack_rows());
    }
}

#[cfg(test)]
mod tests {
    use super::*;

    #[test]
    fn engine_and_peer_agree_in_every_row() {
        for row in picked(&[]).into_iter().chain(calls::stack_rows()) {
            row.check();
        }
    }

    #[test]
    fn rows_have_names_of_their_own() {
        let mut names: Vec<String> = picked(&[]).iter().map(Row::name).collect();
        let count = names.len();
        names.sort();
        names.dedup();
        assert_eq!(names.len(), count);
    }

    #[test]
    fn words_pick_rows() {
        let words = ["common part, 64 house, 40", "import"].map(String::from);
        let names: Vec<String> = picked(&words).iter().map(Row::name).collect();
        let expected = [
            "common part, 64 house, 40",
            "import, 4 diamond, 40",
            "import, 4 diamond, 255",
            "import, 64 house, 40",
            "import, 64 house, 255",
        ];
        assert_eq!(names, expected);
    }
}
