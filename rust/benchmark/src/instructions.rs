//! Counts the instructions of calls by valgrind. The counts are the same in every run, up to a few.
//! This program runs itself under valgrind, makes each call once to be warm, and has valgrind count
//! the second call.

use crate::rows::{Lent, Row, Work};
use std::hint::black_box;
use std::path::Path;
use std::process::{Command, Stdio};
use std::{env, fs, process};

/// The first argument of a run under valgrind. The words that pick the rows follow it.
pub const COUNTED: &str = "--counted";

/// Makes every call twice under valgrind: once not counted, and once counted.
pub fn run(rows: &[Row]) {
    let mut lent = Lent::new();
    for work in rows.iter().flat_map(|row| &row.works) {
        black_box(work(&mut lent));
        counted(work, &mut lent);
        settle();
    }
}

/// Valgrind counts what this function does.
#[inline(never)]
fn counted(work: &Work, lent: &mut Lent) {
    black_box(work(black_box(lent)));
}

/// When this function is called, valgrind writes to a file what it has counted since the last time.
#[inline(never)]
fn settle() {
    black_box(());
}

/// With these settings the C library clears and copies any number of bytes by vector stores.
const SETTINGS: &str = "GLIBC_TUNABLES";
const VECTORS: &str = "glibc.cpu.x86_rep_stosb_threshold=1000000000:\
                       glibc.cpu.x86_rep_movsb_threshold=1000000000";

/// The instructions of each row by the engine and by the peer, if valgrind is installed. The rows
/// are those that the words pick. With `each_byte`, valgrind counts each byte that is cleared or
/// copied; otherwise it counts the vector stores.
pub fn count(words: &[String], rows: &[Row], each_byte: bool) -> Option<Vec<[f64; 2]>> {
    let folder = env::temp_dir().join(format!("benchmark-{}", process::id()));
    fs::create_dir(&folder).expect("a folder for what is counted");
    let program = env::current_exe().expect("this program");
    let status = Command::new("valgrind")
        .args([
            "--tool=callgrind",
            "--toggle-collect=*instructions::counted*",
        ])
        .arg("--dump-before=*instructions::settle*")
        .arg(format!(
            "--callgrind-out-file={}",
            folder.join("counted").display()
        ))
        .arg(program)
        .env(SETTINGS, if each_byte { "" } else { VECTORS })
        .arg(COUNTED)
        .args(words)
        .stdout(Stdio::null())
        .stderr(Stdio::null())
        .status();
    let counts = status.is_ok().then(|| {
        let both = (0..rows.len()).map(|row| {
            [1, 2].map(|worker| total(&folder.join(format!("counted.{}", 2 * row + worker))))
        });
        both.collect()
    });
    fs::remove_dir_all(&folder).expect("the folder");
    counts
}

/// The total in a file that valgrind wrote.
fn total(file: &Path) -> f64 {
    let text = fs::read_to_string(file).expect("what valgrind has counted");
    let mut totals = text
        .lines()
        .filter_map(|line| line.strip_prefix("totals: "));
    let total: Option<f64> = totals.next().and_then(|total| total.trim().parse().ok());
    total.filter(|&total| total > 0.0).expect("a total")
}
