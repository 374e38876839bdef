//! Without the static library this package can be checked. If the package is to be linked, the
//! compiler stops and tells the command to run.

use std::fs;
use std::path::{Path, PathBuf};
use std::process::{Command, Output};

/// A folder without the static library.
fn empty() -> PathBuf {
    let folder = Path::new(env!("CARGO_TARGET_TMPDIR")).join("no archive");
    fs::create_dir_all(&folder).expect("a folder");
    folder
}

/// Runs cargo on this package with the empty folder in place of the library's folder. What is
/// built goes into a folder inside it.
fn cargo(command: &str) -> Output {
    let told = Command::new(env!("CARGO"))
        .args([command, "--offline", "--locked", "--lib"])
        .current_dir(env!("CARGO_MANIFEST_DIR"))
        .env("RECORD_ENGINE_LIB_DIR", empty())
        .env("CARGO_TARGET_DIR", empty().join("target"))
        .output();
    told.expect("cargo runs")
}

#[test]
fn a_missing_archive_is_an_error_only_where_it_is_linked() {
    let checked = cargo("check");
    let errors = String::from_utf8_lossy(&checked.stderr);
    assert!(checked.status.success(), "{errors}");
    let built = cargo("build");
    let errors = String::from_utf8_lossy(&built.stderr);
    assert!(!built.status.success(), "{errors}");
    let archive = empty().join("librecord_engine.a");
    let message = format!(
        "{} is missing: run `rt lib` in the repository's folder crates/record_engine, or set \
         RECORD_ENGINE_LIB_DIR to the folder that has it",
        archive.display()
    );
    assert!(errors.contains(&message), "{errors}");
}
