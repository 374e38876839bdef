//! Prints the stack that a call takes below its caller, by the engine and by the peer.
//! `comparison::stack_taken` measures it. The least number that it gives is 1,024 bytes.

use crate::rows::{Lent, Row};
use comparison::stack_taken;

pub fn print(rows: &[Row]) {
    println!("\nBytes of stack that a call takes\n");
    println!("| call | types | nodes | engine | peer | / peer |");
    println!("|---|---|---|---|---|---|");
    for row in rows {
        let [engine, peer] = row.works.each_ref().map(|work| {
            let mut lent = Lent::new();
            stack_taken(|| {
                work(&mut lent);
            })
        });
        println!(
            "| {} | {} | {} | {engine} | {peer} | {:.2} |",
            row.call,
            row.types,
            row.size.name,
            engine as f64 / peer as f64
        );
    }
}
