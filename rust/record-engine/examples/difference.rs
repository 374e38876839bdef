//! The difference of case 7 of document 01: what the second record says beyond the first.

use record_engine::{Refusal, Table};

fn main() -> Result<(), Refusal> {
    let diamond = Table::from_order(4, &[(0, 1), (0, 2), (1, 3), (2, 3)])?;
    // A root of type 3 whose features 0 and 1 lead to one node, of the type given.
    let record = |leaf: u8| [&[2, 3, 3][..], &[0; 7], &[1, 1, leaf], &[0; 8]].concat();
    println!("{:?}", diamond.difference(&record(3), &record(1))?);
    Ok(())
}
