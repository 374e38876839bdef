//! The list of types for features (Paper 9), also called an appropriateness list. The 64
//! bytes give for each feature the broadest type that may have it: a node may have the
//! feature when its type is below or equal to that type. So 0 forbids a feature, since no
//! node has type 0, and top allows it to all nodes.

use crate::graph::{FEATURES, Feature, Graph};
use crate::table::{Table, Type};

/// An accepted list over a table.
#[derive(Clone, Debug, PartialEq, Eq)]
pub struct Appropriateness {
    /// For each feature the broadest type that may have it.
    broadest: [Type; FEATURES],
}

impl Appropriateness {
    /// Reads a list. Gives none, which is refusal 17, if the list has not 64 bytes or an
    /// entry is n or more.
    pub fn accept(table: &Table, bytes: &[u8]) -> Option<Appropriateness> {
        let broadest: [Type; FEATURES] = bytes.try_into().ok()?;
        let is_type = |&entry: &Type| usize::from(entry) < table.n();
        broadest
            .iter()
            .all(is_type)
            .then_some(Appropriateness { broadest })
    }

    /// Whether a node of this type may have the feature.
    pub fn allows(&self, table: &Table, node_type: Type, feature: Feature) -> bool {
        table.below(node_type, self.broadest[usize::from(feature)])
    }

    /// Whether a graph obeys the list: every node may have all features that it has.
    pub fn is_obeyed(&self, table: &Table, graph: &Graph) -> bool {
        graph.nodes.iter().all(|node| {
            node.links
                .keys()
                .all(|&feature| self.allows(table, node.label.node_type, feature))
        })
    }
}
