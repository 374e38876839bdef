//! Why a command fails: the engine refuses, a text or bytes cannot be handed to the engine, or
//! the command is used wrongly. All failures are told on standard error. The exit status is 2 for
//! wrong use and 1 for the others.

use record_engine::Refusal;

/// A failure: the message on standard error. Its kind decides the exit status.
#[derive(Clone, Debug, PartialEq, Eq)]
pub enum Failure {
    /// Status 1: the engine refuses a table, a record or an operation on them, by a number.
    Refused { number: u8, message: String },
    /// Status 1: a text or bytes are no table, no record and no planning table.
    Malformed(String),
    /// Status 2: the command is used wrongly, or a file or program cannot be used.
    Usage(String),
}

impl Failure {
    /// A refusal by the engine, with this message.
    pub fn refused(refusal: Refusal, message: String) -> Failure {
        let number = refusal.number();
        Failure::Refused { number, message }
    }

    /// Wrong use, with a message of the tool.
    pub fn usage(message: impl AsRef<str>) -> Failure {
        Failure::Usage(format!("fitting: {}", message.as_ref()))
    }

    pub fn message(&self) -> &str {
        match self {
            Failure::Refused { message, .. }
            | Failure::Malformed(message)
            | Failure::Usage(message) => message,
        }
    }

    pub fn status(&self) -> u8 {
        match self {
            Failure::Refused { .. } | Failure::Malformed(_) => 1,
            Failure::Usage(_) => 2,
        }
    }
}
