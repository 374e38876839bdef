//! Document 01's notation for graphs: `type{lowest..highest}[feature: value, ..]`. Equal capitals
//! are one node, as in `top[0: X a, 1: X]`. A range of one level is `{level}`. A name in quotation
//! marks may begin with a capital. White space and line breaks may stand anywhere between words, and
//! `#` begins a comment. [`read`] reads what [`write()`] prints.

mod read;
mod tokens;
mod write;

pub use read::{Text, read};
pub use tokens::{is_name, quoted};
pub use write::{label, write, write_line};
