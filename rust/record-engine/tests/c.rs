//! The header in C and in C++: it compiles by every standard without a warning, and
//! `record_refusal_text` gives the sentences of `Refusal`.

use record_engine::Refusal;
use std::collections::BTreeMap;
use std::fs;
use std::path::{Path, PathBuf};
use std::process::{Command, Output};

/// A program that reads the header and uses nothing of it.
const UNUSED: &str = r#"
#include "record_engine.h"
int main(void) { return 0; }
"#;

/// A program that prints a line for the refusal of each number, and a line for each of four
/// answers that are no refusals.
const SENTENCES: &str = r#"
#include "record_engine.h"
#include <stdio.h>
int main(void) {
    uint64_t number;
    for (number = 0; number < 256; number++) {
        uint64_t answer = (UINT64_C(1) << 32) + 256 * (number % 3) + number;
        printf("%d %s\n", RECORD_REFUSAL(answer), record_refusal_text(answer));
    }
    printf("%s\n", record_refusal_text(0));
    printf("%s\n", record_refusal_text(RECORD_LONGEST));
    printf("%s\n", record_refusal_text(RECORD_NEITHER));
    printf("%s\n", record_refusal_text((UINT64_C(1) << 34) + (3 << 16) + 2));
    return 0;
}
"#;

/// Builds a program against the header, with every warning an error.
fn build(compiler: &str, language: &str, standard: &str, program: &str) -> PathBuf {
    let folder = Path::new(env!("CARGO_TARGET_TMPDIR"));
    let source = folder.join(format!("header {standard}.txt"));
    let built = folder.join(format!("header {standard}"));
    fs::write(&source, program).expect("a written file");
    let include = Path::new(env!("CARGO_MANIFEST_DIR")).join("../../include");
    let told = Command::new(compiler)
        .args([
            &format!("-std={standard}"),
            "-x",
            language,
            "-Wall",
            "-Wextra",
            "-Wpedantic",
        ])
        .args([
            "-Wconversion",
            "-Wsign-conversion",
            "-Wundef",
            "-Wshadow",
            "-Werror",
            "-I",
        ])
        .args([include.as_path(), Path::new("-o"), &built, &source])
        .output();
    succeeded(told.expect("a compiler"));
    built
}

/// What a program printed. Panics if the program failed.
fn succeeded(told: Output) -> String {
    assert!(
        told.status.success(),
        "{}",
        String::from_utf8_lossy(&told.stderr)
    );
    String::from_utf8(told.stdout).expect("text")
}

/// The lines that the program has to print.
fn sentences() -> String {
    let known = Refusal::ALL
        .iter()
        .map(|known| (known.number(), known.text()));
    let known: BTreeMap<u8, &str> = known.collect();
    let unknown = "a refusal that this header does not know";
    let lines = (0..=255).map(|number| {
        let text = known.get(&number).unwrap_or(&unknown);
        format!("{number} {text}\n")
    });
    lines.collect::<String>() + &"no refusal\n".repeat(4)
}

/// The standards of C++ are tried only on a machine that has a compiler for C++.
#[test]
fn every_standard_takes_the_header() {
    let c = ["c89", "c99", "c11", "c17", "c2x"].map(|standard| ("cc", "c", standard));
    let plus_plus = ["c++98", "c++11", "c++17", "c++20"].map(|standard| ("c++", "c++", standard));
    let mut tried = c.to_vec();
    match Command::new("c++").arg("--version").output() {
        Ok(_) => tried.extend(plus_plus),
        Err(_) => println!("there is no c++: the header is not tried with C++"),
    }
    for (compiler, language, standard) in tried {
        build(compiler, language, standard, UNUSED);
        let program = build(compiler, language, standard, SENTENCES);
        let told = Command::new(program).output().expect("the program runs");
        assert_eq!(succeeded(told), sentences(), "{standard}");
    }
}
