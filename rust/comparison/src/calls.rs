//! The calls of the proved engine and of the reference in one form. Both have the same names and
//! parameters.

use crate::told::Told;
use reference::calls;
use reference::random::TableBytes;
use reference::record::{LONGEST_RECORD, MOST_LINKS};
use reference::reply::Reply;

/// A call as a function of the table, the inputs and the outputs. The inputs are the records; a
/// list stands before them if the call takes one. A call ignores records that it does not take.
type Engine<T> = fn(&TableBytes, &[&[u8]], &mut [&mut [u8]]) -> T;

/// One output of a call.
#[derive(Clone, Copy)]
pub struct Output {
    /// This many bytes are always enough.
    pub longest: usize,
    /// The number of the refusal if the output has too few bytes.
    pub short: u8,
}

const RECORD: Output = Output {
    longest: LONGEST_RECORD,
    short: 8,
};

const REASONS: Output = Output {
    longest: MOST_LINKS,
    short: 22,
};

/// One call, by the proved engine and by the reference.
#[derive(Clone, Copy)]
pub struct Call {
    /// The call of the proved engine.
    pub engine: Engine<Told>,
    /// The call of the reference.
    pub reference: Engine<Reply>,
    /// The outputs that the call takes. The first is for a record.
    pub outputs: &'static [Output],
    /// The call that writes the same record and nothing else, if there is one.
    pub plain: Option<&'static Call>,
}

/// Makes a [`Call`] from the name of a call, what the call takes after the table, and its outputs.
macro_rules! call {
    ($name:ident($($input:ident),*; $($output:ident: $kind:expr),*)) => {
        Call {
            engine: |table, inputs, outputs| {
                let ([$($input,)* ..], [$($output),*]) = (inputs, outputs) else {
                    panic!("other inputs or outputs than {} takes", stringify!($name));
                };
                record_engine::$name(table.n, &table.bytes, $($input,)* $($output),*).into()
            },
            reference: |table, inputs, outputs| {
                let ([$($input,)* ..], [$($output),*]) = (inputs, outputs) else {
                    panic!("other inputs or outputs than {} takes", stringify!($name));
                };
                calls::$name(table.n, &table.bytes, $($input,)* $($output),*)
            },
            outputs: &[$($kind),*],
            plain: None,
        }
    };
}

/// The written record of a record.
pub const REWRITE: Call = call!(rewrite(graph; output: RECORD));

/// The order of two records, seen from the first. It writes nothing.
pub const ORDER: Call = call!(order(first, second;));

/// The common part.
pub const GENERALIZE: Call = call!(generalize(first, second; output: RECORD));

/// The combination.
pub const UNIFY: Call = call!(unify(first, second; output: RECORD));

/// The difference of the first record, which is the general one, and the second.
pub const DIFFERENCE: Call = call!(difference(general, specific; output: RECORD));

/// The written record of a record that obeys a list of types for features.
pub const REWRITE_APPROPRIATE: Call = call!(rewrite_appropriate(list, graph; output: RECORD));

/// The common part of two records that obey a list of types for features.
pub const GENERALIZE_APPROPRIATE: Call =
    call!(generalize_appropriate(list, first, second; output: RECORD));

/// The combination of two records that obey a list of types for features.
pub const UNIFY_APPROPRIATE: Call = call!(unify_appropriate(list, first, second; output: RECORD));

/// The difference by a reading order.
pub const DIFFERENCE_BY: Call = call!(difference_by(list, general, specific; output: RECORD));

/// The listed record that follows a record. The first input is the number of features, in the
/// bytes that `number` gives; the second is the record.
pub const NEXT: Call = Call {
    engine: |table, inputs, outputs| {
        let ([features, record, ..], [output]) = (inputs, outputs) else {
            panic!("next takes a number, a record and an output");
        };
        record_engine::next(table.n, &table.bytes, number_of(features), record, output).into()
    },
    reference: |table, inputs, outputs| {
        let ([features, record, ..], [output]) = (inputs, outputs) else {
            panic!("next takes a number, a record and an output");
        };
        calls::next(table.n, &table.bytes, number_of(features), record, output)
    },
    outputs: &[RECORD],
    plain: None,
};

/// A number as an input of a call.
pub fn number(number: usize) -> [u8; size_of::<usize>()] {
    number.to_le_bytes()
}

fn number_of(input: &[u8]) -> usize {
    usize::from_le_bytes(input.try_into().expect("the bytes of a number"))
}

/// The difference with its reasons.
pub const DIFFERENCE_EXPLAINED: Call = Call {
    plain: Some(&DIFFERENCE),
    ..call!(difference_explained(general, specific; output: RECORD, reasons: REASONS))
};

/// The difference by a reading order, with its reasons.
pub const DIFFERENCE_EXPLAINED_BY: Call = Call {
    plain: Some(&DIFFERENCE_BY),
    ..call!(difference_explained_by(list, general, specific; output: RECORD, reasons: REASONS))
};
