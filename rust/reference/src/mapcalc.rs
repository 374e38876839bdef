//! The small program `mapcalc` as a function. It takes the bytes of standard input and gives
//! the line that the program prints, without the line end. Input that does not have the form
//! of document 01 is `bad input`. This is checked before anything else.

use crate::calls;
use crate::reader::Reader;
use crate::record::LONGEST_RECORD;
use crate::reply::{Refusal, Reply, Side};

/// A record length above this is bad input.
pub const MOST_LENGTH: usize = 8192;

/// What is asked for.
#[derive(Clone, Copy, Debug, PartialEq, Eq)]
pub enum Operation {
    /// 1: the common part.
    Generalize,
    /// 2: the combination.
    Unify,
    /// 3: the difference, g first.
    Difference,
    /// 4: which is the broader, seen from the first.
    Order,
}

impl Operation {
    /// All operations, in the order of their bytes.
    pub const ALL: [Operation; 4] = [
        Operation::Generalize,
        Operation::Unify,
        Operation::Difference,
        Operation::Order,
    ];

    /// The operation byte.
    pub fn byte(self) -> u8 {
        match self {
            Operation::Generalize => 1,
            Operation::Unify => 2,
            Operation::Difference => 3,
            Operation::Order => 4,
        }
    }

    /// The operation of a byte, if it is one of the four.
    pub fn of_byte(byte: u8) -> Option<Operation> {
        Operation::ALL
            .into_iter()
            .find(|operation| operation.byte() == byte)
    }
}

/// The parts of the input.
struct Input<'a> {
    operation: Operation,
    n: u8,
    table: &'a [u8],
    first: &'a [u8],
    second: &'a [u8],
}

/// The line printed for an input, without its line end.
pub fn line(input: &[u8]) -> String {
    let Some(input) = parse(input) else {
        return "bad input".to_string();
    };
    let Input {
        table,
        first,
        second,
        ..
    } = input;
    let n = usize::from(input.n);
    let mut output = [0; LONGEST_RECORD];
    let reply = match input.operation {
        Operation::Generalize => calls::generalize(n, table, first, second, &mut output),
        Operation::Unify => calls::unify(n, table, first, second, &mut output),
        Operation::Difference => calls::difference(n, table, first, second, &mut output),
        Operation::Order => calls::order(n, table, first, second),
    };
    match reply {
        Reply::Length(length) => format!("ok {length} {}", hexadecimal(&output[..length])),
        Reply::Order(order) => order.word().to_string(),
        Reply::End | Reply::Counts { .. } => {
            unreachable!("no operation goes through a listing or fills rows")
        }
        Reply::Refused(Refusal::Graph(fault, side)) => {
            let side = match side {
                Side::First => "first",
                Side::Second => "second",
            };
            format!("refused {} {side}", fault.number())
        }
        Reply::Refused(refusal) => format!("refused {}", refusal.number()),
    }
}

/// The parts of the input; none if the input is bad.
fn parse(input: &[u8]) -> Option<Input<'_>> {
    let mut reader = Reader::new(input);
    let operation = Operation::of_byte(reader.byte()?)?;
    let n = reader.byte()?;
    let table = reader.take(8 * usize::from(n))?;
    let first = counted(&mut reader)?;
    let second = counted(&mut reader)?;
    reader.at_end().then_some(Input {
        operation,
        n,
        table,
        first,
        second,
    })
}

/// A record after its length of 2 bytes, low byte first.
fn counted<'a>(reader: &mut Reader<'a>) -> Option<&'a [u8]> {
    let low = usize::from(reader.byte()?);
    let high = usize::from(reader.byte()?);
    let length = low + 256 * high;
    if length > MOST_LENGTH {
        return None;
    }
    reader.take(length)
}

/// Lower-case hexadecimal digits, two for each byte.
fn hexadecimal(bytes: &[u8]) -> String {
    bytes.iter().map(|byte| format!("{byte:02x}")).collect()
}

/// The input bytes that ask for an operation on a table and two records. The parts are not
/// checked, and the length of a record is cut to 16 bits.
pub fn input(operation: u8, n: u8, table: &[u8], first: &[u8], second: &[u8]) -> Vec<u8> {
    let mut input = vec![operation, n];
    input.extend(table);
    for record in [first, second] {
        input.extend((record.len() as u16).to_le_bytes());
        input.extend(record);
    }
    input
}
