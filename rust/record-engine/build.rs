//! Links the static library of the engine, `librecord_engine.a`. `rt lib`, run in the
//! repository's folder `crates/record_engine`, writes the library to `out` there. If the library
//! is in another folder, the environment variable `RECORD_ENGINE_LIB_DIR` has the absolute path
//! of that folder. If the library is missing, `src/missing.rs` stops the compiler before it
//! links.

use std::env;
use std::path::{Path, PathBuf};

const FOLDER: &str = "RECORD_ENGINE_LIB_DIR";

fn main() {
    let folder = env::var_os(FOLDER).map_or_else(in_repository, PathBuf::from);
    let archive = folder.join("librecord_engine.a");
    println!("cargo::rerun-if-changed=build.rs");
    println!("cargo::rerun-if-changed={}", archive.display());
    println!("cargo::rerun-if-env-changed={FOLDER}");
    println!("cargo::rustc-check-cfg=cfg(archive_missing)");
    if archive.exists() {
        println!("cargo::rustc-link-search=native={}", folder.display());
        println!("cargo::rustc-link-lib=static=record_engine");
    } else {
        println!("cargo::rustc-cfg=archive_missing");
        println!(
            "cargo::rustc-env=ARCHIVE_MISSING={} is missing: run `rt lib` in the repository's folder crates/record_engine, or set {FOLDER} to the folder that has it",
            archive.display()
        );
    }
}

fn in_repository() -> PathBuf {
    let package = env::var("CARGO_MANIFEST_DIR").expect("cargo tells the package's folder");
    Path::new(&package).join("../../crates/record_engine/out")
}
