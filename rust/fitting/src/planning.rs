//! A planning table as CSV. Nodes stand below the header line `node,type,lowest,highest`, and links
//! stand below `parent,feature,target`, in one file or in two. [`read`] reads what [`nodes`] and
//! [`links`] print. Rows may stand in any order, and a cell has a name or a number.

mod csv;
mod read;
mod write;

pub use csv::File;
pub use read::{Place, Planning, read};
pub use write::{links, nodes};

/// The header of nodes. The last two columns may be missing.
const NODES: [&str; 4] = ["node", "type", "lowest", "highest"];

/// The header of links.
const LINKS: [&str; 3] = ["parent", "feature", "target"];

/// What a planning table says of a node: its type, its lowest and its highest level.
pub type NodeBytes = [u8; 3];
