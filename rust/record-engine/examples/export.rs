//! Keeps four programs over the diamond in one store. The program puts them, saves the used
//! bytes, and reads every program back from the saved bytes. Then it shows a put that is
//! refused. It prints what `examples/export.stdout` of the repository has.

use record_engine::{Refusal, Store, Table};

fn main() -> Result<(), Refusal> {
    let diamond = Table::from_order(4, &[(0, 1), (0, 2), (1, 3), (2, 3)])?;
    // Features 0 and 1 of the root lead to one node, and feature 9 leads to another. `one` is
    // the type of the first node, with its levels if it has a range. `other` is the type of the
    // second node.
    let program = |one: &[u8], other: u8| {
        let root = [3, 3, 3, 2, 0, 0, 0, 0, 0, 0, 1, 1, 2];
        [&root, one, &[0; 8], &[other], &[0; 8]].concat()
    };
    let fourth = program(&[0x80 + 2, 9, 99], 3);
    let programs = [program(&[3], 3), program(&[1], 3), program(&[1], 2), fourth];
    let mut store = Store::new();
    for (version, program) in programs.iter().enumerate() {
        let used = store.put(&diamond, version, program)?;
        let length = program.len();
        println!("put {version}, of {length} bytes: {used} used");
    }
    let saved = store.used().to_vec();
    let mut opened = Store::holding(&saved);
    for (version, program) in programs.iter().enumerate() {
        assert_eq!(opened.read(&diamond, version)?, *program);
        println!("read {version}: as it was put");
    }
    let refused = opened.put(&diamond, 3, &programs[0]).unwrap_err();
    println!("put 3 again: refused {}", refused.number());
    Ok(())
}
