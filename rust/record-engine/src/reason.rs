//! The reason why a difference keeps a link, and the byte that stands for it.

use std::error::Error;
use std::fmt;

/// Why a difference keeps a link: the first of the three reasons that holds. A link of the
/// general record lies over a link of the specific record when some path of the general record
/// ends with the former, and the same path of the specific record ends with the latter.
#[derive(Clone, Copy, Debug, PartialEq, Eq, Hash)]
pub enum Reason {
    /// 1: nothing of the general record lies over the link.
    Bare,
    /// 2: the links that enter its node in the specific record are in two or more groups.
    /// Two links are in one group when links of the general record that enter one node lie over
    /// them, or when both are in one group with a third link. So with two groups, the general
    /// record does not say that all these links lead to one node.
    Groups,
    /// 3: its node has a type or a range that the general record does not give, or a link that
    /// leaves its node is kept.
    Wanted,
}

/// The reason that a byte stands for.
///
/// ```
/// use record_engine::{NoReason, Reason};
/// assert_eq!(Reason::try_from(2), Ok(Reason::Groups));
/// assert_eq!(Reason::try_from(0), Err(NoReason(0)));
/// assert_eq!(NoReason(7).to_string(), "7 is no reason: reasons are 1, 2 and 3");
/// ```
impl TryFrom<u8> for Reason {
    type Error = NoReason;

    fn try_from(byte: u8) -> Result<Reason, NoReason> {
        match byte {
            1 => Ok(Reason::Bare),
            2 => Ok(Reason::Groups),
            3 => Ok(Reason::Wanted),
            _ => Err(NoReason(byte)),
        }
    }
}

/// A byte that stands for no [`Reason`].
#[derive(Clone, Copy, Debug, PartialEq, Eq, Hash)]
pub struct NoReason(
    /// The byte.
    pub u8,
);

impl fmt::Display for NoReason {
    fn fmt(&self, formatter: &mut fmt::Formatter<'_>) -> fmt::Result {
        let NoReason(byte) = self;
        write!(formatter, "{byte} is no reason: reasons are 1, 2 and 3")
    }
}

impl Error for NoReason {}

impl fmt::Display for Reason {
    fn fmt(&self, formatter: &mut fmt::Formatter<'_>) -> fmt::Result {
        formatter.write_str(match self {
            Reason::Bare => "the general record has no such link",
            Reason::Groups => "the general record does not join all links to its node",
            Reason::Wanted => {
                "its node says more than in the general record, or something below it is kept"
            }
        })
    }
}

#[cfg(test)]
mod tests {
    use super::*;

    #[test]
    fn three_bytes_are_reasons() {
        let known = [Reason::Bare, Reason::Groups, Reason::Wanted];
        for byte in 0..=255 {
            let reason = match byte {
                1..=3 => Ok(known[usize::from(byte) - 1]),
                _ => Err(NoReason(byte)),
            };
            assert_eq!(Reason::try_from(byte), reason);
        }
    }
}
