//! A table as source: the Rust that is printed compiles, and its bytes are the table's.

mod tool;

use std::fs;
use tool::{folder, output, tool};

/// What `fitting table --rust` prints of the example's table.
mod stored {
    include!("golden/device.rs");
}

#[test]
fn the_source_of_a_table_has_its_bytes() {
    let folder = folder("sources");
    let table = "examples/fitting/device.table";
    let told = output(tool(&folder, &["table", table, "--rust"]), b"");
    let text = String::from_utf8(told.stdout).expect("text");
    assert_eq!(text, include_str!("golden/device.rs"));
    let told = output(tool(&folder, &["table", table, "-o", "device"]), b"");
    assert!(told.status.success() && told.stdout.is_empty());
    let bytes = fs::read(folder.join("device")).expect("the bytes are written");
    assert_eq!(bytes, stored::DEVICE_TABLE);
    assert_eq!(bytes.len(), 8 * stored::DEVICE_TYPES);
    // The C header has the same numbers.
    let told = output(tool(&folder, &["table", table, "--c"]), b"");
    let header = String::from_utf8(told.stdout).expect("text");
    let numbers = header.split("0x").skip(1).map(|rest| &rest[..2]);
    let numbers: Vec<u8> = numbers
        .map(|digits| u8::from_str_radix(digits, 16).expect("a byte"))
        .collect();
    assert_eq!(numbers, bytes);
}
