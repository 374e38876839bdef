//! A graph in compressed rows, and reading one from a record.

use crate::range::Range;

/// Bit 7 of a type byte: two bytes of a range follow it.
pub const HAS_RANGE: u8 = 0x80;

/// A feature, and the node that it leads to, in one word.
#[derive(Clone, Copy, PartialEq, Eq)]
pub struct Link(u16);

impl Link {
    /// What stands at a place without a link.
    pub const BLANK: Link = Link(0);

    pub fn new(feature: u8, target: u8) -> Link {
        Link(u16::from(feature) << 8 | u16::from(target))
    }

    pub fn feature(self) -> u8 {
        (self.0 >> 8) as u8
    }

    pub fn target(self) -> usize {
        usize::from(self.0 as u8)
    }
}

/// A graph. The links of node v stand at the places `first[v]` to `first[v + 1] - 1`, by ascending
/// features. The arrays for nodes have 256 places, so that every byte is a place; a graph has at
/// most 255 nodes.
#[derive(Clone)]
pub struct Graph {
    pub nodes: usize,
    pub types: [u8; 256],
    pub ranges: [Range; 256],
    pub first: [u16; 257],
    pub links: [Link; 2048],
}

impl Graph {
    pub fn empty() -> Graph {
        Graph {
            nodes: 0,
            types: [0; 256],
            ranges: [Range::FULL; 256],
            first: [0; 257],
            links: [Link::BLANK; 2048],
        }
    }

    /// The places of a node's links.
    pub fn places(&self, node: usize) -> std::ops::Range<usize> {
        usize::from(self.first[node])..usize::from(self.first[node + 1])
    }

    /// A node's links.
    pub fn row(&self, node: usize) -> &[Link] {
        &self.links[self.places(node)]
    }

    /// All links.
    pub fn all_links(&self) -> &[Link] {
        &self.links[..usize::from(self.first[self.nodes])]
    }

    /// Reads the graph of a record over n types into this empty graph, or gives 4 to 7.
    pub fn read(&mut self, n: usize, record: &[u8]) -> Result<(), u8> {
        let has_levels = self.parse(record).ok_or(4)?;
        self.judge(n, has_levels)
    }

    /// Reads the nodes of a record, and tells whether every range has a level.
    fn parse(&mut self, record: &[u8]) -> Option<bool> {
        let (&nodes, mut rest) = record.split_first()?;
        self.nodes = usize::from(nodes);
        let mut links = 0;
        let mut has_levels = true;
        for node in 0..self.nodes {
            let (map, after) = if *rest.first()? & HAS_RANGE == 0 {
                let (&[type_byte, map @ ..], after) = rest.split_first_chunk::<9>()?;
                self.types[node] = type_byte;
                (map, after)
            } else {
                let (&[type_byte, lowest, highest, map @ ..], after) =
                    rest.split_first_chunk::<11>()?;
                self.types[node] = type_byte & !HAS_RANGE;
                self.ranges[node] = Range { lowest, highest };
                has_levels &= lowest <= highest;
                (map, after)
            };
            let mut map = u64::from_le_bytes(map);
            let count = map.count_ones() as usize;
            let row = self.links.get_mut(links..links + count)?;
            let (targets, after) = after.split_at_checked(count)?;
            for (link, &target) in row.iter_mut().zip(targets) {
                *link = Link::new(map.trailing_zeros() as u8, target);
                map &= map - 1;
            }
            links += count;
            self.first[node + 1] = links as u16;
            rest = after;
        }
        (nodes > 0 && rest.is_empty()).then_some(has_levels)
    }

    /// Checks 5, 6 and 7 of a graph. `has_levels` tells whether every range has a level.
    ///
    /// A node is removed once the parents of all its incoming links are removed. If some nodes
    /// remain, the answer is 6. Else every node is reached from a node without incoming links. If
    /// the root is not the only such node, the answer is 7.
    pub fn judge(&self, n: usize, has_levels: bool) -> Result<(), u8> {
        let types = &self.types[..self.nodes];
        let least = types.iter().fold(u8::MAX, |least, &next| least.min(next));
        let most = types.iter().fold(0, |most: u8, &next| most.max(next));
        let mut incoming = [0u16; 256];
        for link in self.all_links() {
            incoming[link.target()] += 1;
        }
        let outside = incoming[self.nodes..]
            .iter()
            .fold(0, |all, &count| all | count);
        if !has_levels || least == 0 || usize::from(most) >= n || outside != 0 {
            return Err(5);
        }
        let mut queue = [0u8; 256];
        let mut end = 0;
        for (node, &count) in incoming[..self.nodes].iter().enumerate() {
            if count == 0 {
                queue[end] = node as u8;
                end += 1;
            }
        }
        let is_rooted = end == 1 && queue[0] == 0;
        let mut next = 0;
        while next < end {
            for link in self.row(usize::from(queue[next])) {
                let count = &mut incoming[link.target()];
                *count -= 1;
                if *count == 0 {
                    queue[end] = link.target() as u8;
                    end += 1;
                }
            }
            next += 1;
        }
        if end < self.nodes {
            return Err(6);
        }
        if is_rooted { Ok(()) } else { Err(7) }
    }
}
