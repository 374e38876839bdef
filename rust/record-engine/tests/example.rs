//! The example `export`, which keeps four programs in a store, prints what the example in C
//! prints.

use std::process::Command;

#[test]
fn the_export_prints_what_that_in_c_prints() {
    let told = Command::new(env!("CARGO"))
        .args(["run", "--quiet", "--offline", "--locked"])
        .args(["--example", "export"])
        .current_dir(env!("CARGO_MANIFEST_DIR"))
        .output();
    let told = told.expect("cargo runs");
    let errors = String::from_utf8_lossy(&told.stderr);
    assert!(told.status.success(), "{errors}");
    let stored = include_str!("../../../examples/export.stdout");
    assert_eq!(String::from_utf8_lossy(&told.stdout), stored);
}
