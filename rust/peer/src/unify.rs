//! The combination. It puts the nodes of both graphs into classes, and merges the targets of
//! merged nodes by equal features.

use crate::Refusal;
use crate::bounds::Bounds;
use crate::classes::Classes;
use crate::graph::{Graph, Link};
use crate::range::Range;
use crate::write::{renumber, write};

/// Room for the nodes of both graphs, up to 255 each, rounded up to a power of two; and room for
/// their links.
const NODES: usize = 512;
const LINKS: usize = 4096;
/// Room for the links of all graphs. A merge appends a row of up to 64 links, and there are fewer
/// merges than nodes.
const LARGE: usize = LINKS + 64 * NODES;
/// Room for the links of most graphs.
const SMALL: usize = 5376;

/// A feature and the node that it leads to, in one word. The nodes of both graphs are numbered
/// together.
#[derive(Clone, Copy)]
struct ClassLink(u16);

impl ClassLink {
    fn new(feature: u8, target: u16) -> ClassLink {
        ClassLink(u16::from(feature) << 9 | target)
    }

    fn feature(self) -> u8 {
        (self.0 >> 9) as u8
    }

    fn target(self) -> u16 {
        self.0 & 0x1FF
    }
}

/// The links of each class: a span of places, features ascending.
struct Rows<const ROOM: usize> {
    span: [(u16, u16); NODES],
    links: [ClassLink; ROOM],
    end: usize,
}

/// Writes the combination, or gives 9, 10, 11 or 8.
pub fn unify(meets: &Bounds, a: &Graph, b: &Graph, output: &mut [u8]) -> Result<usize, Refusal> {
    unify_with(meets, a, b, |graph| write(graph, output))
}

/// Makes the combination in written numbering, or gives 9, 10 or 11.
pub fn combine(meets: &Bounds, a: &Graph, b: &Graph, written: &mut Graph) -> Result<(), Refusal> {
    unify_with(meets, a, b, |graph| {
        renumber(graph, written);
        Ok(())
    })
}

/// Makes the combination and gives what `finish` makes of it, or gives 9, 10 or 11. The helpers
/// are inlined into both functions that call it.
fn unify_with<T>(
    meets: &Bounds,
    a: &Graph,
    b: &Graph,
    finish: impl FnOnce(&Graph) -> Result<T, Refusal>,
) -> Result<T, Refusal> {
    let most = a.all_links().len() + b.all_links().len() + 64 * (a.nodes + b.nodes - 1);
    if most <= SMALL {
        unify_within::<SMALL, T>(meets, a, b, finish)
    } else {
        unify_within::<LARGE, T>(meets, a, b, finish)
    }
}

/// Does the same, with room for `ROOM` links.
fn unify_within<const ROOM: usize, T>(
    meets: &Bounds,
    a: &Graph,
    b: &Graph,
    finish: impl FnOnce(&Graph) -> Result<T, Refusal>,
) -> Result<T, Refusal> {
    let mut rows: Rows<ROOM> = Rows {
        span: [(0, 0); NODES],
        links: [ClassLink(0); ROOM],
        end: 0,
    };
    rows.place(a, 0);
    rows.place(b, a.nodes);
    let total = a.nodes + b.nodes;
    let mut classes = Classes::<NODES>::new();
    let mut pending = [(0u16, 0u16); LINKS + 1];
    pending[0] = (0, a.nodes as u16);
    let mut waiting = 1;
    while waiting > 0 {
        waiting -= 1;
        let (x, y) = pending[waiting];
        let (x, y) = (classes.find(x), classes.find(y));
        if x != y {
            let (lower, higher) = (x.min(y), x.max(y));
            classes.put_under(lower, higher);
            rows.merge(lower, higher, &mut pending, &mut waiting);
        }
    }
    // Each class gets a number, the meet of its types and the overlap of its ranges. The root's
    // class has number 0. The least node of a class comes first and gives the class its number.
    let mut number = [0u16; NODES];
    let mut representative = [0u16; NODES];
    let mut types = [0u8; NODES];
    let mut ranges = [Range::FULL; NODES];
    let mut count = 0;
    for node in 0..total {
        let class = usize::from(classes.find(node as u16));
        let (node_type, range) = if node < a.nodes {
            (a.types[node], a.ranges[node])
        } else {
            (b.types[node - a.nodes], b.ranges[node - a.nodes])
        };
        if class == node {
            number[node] = count as u16;
            representative[count] = node as u16;
            types[count] = node_type;
            ranges[count] = range;
            count += 1;
        } else {
            number[node] = number[class];
            let number = usize::from(number[class]);
            types[number] = meets.meet(types[number], node_type);
            ranges[number] = ranges[number].overlap(range);
        }
    }
    let mut links = 0;
    let mut incoming = [0u16; NODES];
    for &class in &representative[..count] {
        let (start, end) = rows.span[usize::from(class)];
        for link in &mut rows.links[usize::from(start)..usize::from(end)] {
            let target = number[usize::from(link.target())];
            *link = ClassLink::new(link.feature(), target);
            incoming[usize::from(target)] += 1;
            links += 1;
        }
    }
    if has_cycle(&rows, &representative[..count], &mut incoming) {
        return Err(Refusal::of(9));
    }
    if types[..count].contains(&0) || ranges[..count].iter().any(|range| range.is_empty()) {
        return Err(Refusal::of(10));
    }
    if count > 255 || links > 2048 {
        return Err(Refusal::of(11));
    }
    let mut graph = Graph::empty();
    graph.nodes = count;
    graph.types[..count].copy_from_slice(&types[..count]);
    graph.ranges[..count].copy_from_slice(&ranges[..count]);
    let mut place = 0;
    for (node, &class) in representative[..count].iter().enumerate() {
        let row = rows.row(class);
        for (to, from) in graph.links[place..].iter_mut().zip(row) {
            *to = Link::new(from.feature(), from.target() as u8);
        }
        place += row.len();
        graph.first[node + 1] = place as u16;
    }
    finish(&graph)
}

/// Whether a class reaches itself. A class is removed once the classes of all its incoming links
/// are removed. A class that reaches itself remains.
#[inline(always)]
fn has_cycle<const ROOM: usize>(
    rows: &Rows<ROOM>,
    representative: &[u16],
    incoming: &mut [u16; NODES],
) -> bool {
    let mut queue = [0u16; NODES];
    let mut end = 0;
    for (node, &count) in incoming[..representative.len()].iter().enumerate() {
        if count == 0 {
            queue[end] = node as u16;
            end += 1;
        }
    }
    let mut next = 0;
    while next < end {
        for link in rows.row(representative[usize::from(queue[next])]) {
            let count = &mut incoming[usize::from(link.target())];
            *count -= 1;
            if *count == 0 {
                queue[end] = link.target();
                end += 1;
            }
        }
        next += 1;
    }
    end < representative.len()
}

impl<const ROOM: usize> Rows<ROOM> {
    /// The links of a class.
    fn row(&self, class: u16) -> &[ClassLink] {
        let (start, end) = self.span[usize::from(class)];
        &self.links[usize::from(start)..usize::from(end)]
    }

    /// The links of a graph whose node 0 has this number.
    #[inline(always)]
    fn place(&mut self, graph: &Graph, root: usize) {
        let start = self.end;
        let links = graph.all_links();
        for (to, from) in self.links[start..].iter_mut().zip(links) {
            *to = ClassLink::new(from.feature(), (root + from.target()) as u16);
        }
        for node in 0..graph.nodes {
            let places = graph.places(node);
            let span = ((start + places.start) as u16, (start + places.end) as u16);
            self.span[root + node] = span;
        }
        self.end += links.len();
    }

    /// Appends the links of two classes as those of the lower. Two links by one
    /// feature become one, and their targets are to be merged.
    #[inline(always)]
    fn merge(
        &mut self,
        lower: u16,
        higher: u16,
        pending: &mut [(u16, u16); LINKS + 1],
        waiting: &mut usize,
    ) {
        let [of_lower, of_higher] = [lower, higher].map(|class| self.span[usize::from(class)]);
        if of_higher.0 == of_higher.1 {
            return;
        }
        if of_lower.0 == of_lower.1 {
            self.span[usize::from(lower)] = of_higher;
            return;
        }
        let start = self.end;
        let (known, merged) = self.links.split_at_mut(start);
        let [left, right] =
            [of_lower, of_higher].map(|(start, end)| &known[usize::from(start)..usize::from(end)]);
        let (mut i, mut j) = (0, 0);
        let mut places = merged.iter_mut();
        while i < left.len() && j < right.len() {
            let (one, other) = (left[i], right[j]);
            let is_first = one.feature() <= other.feature();
            if one.feature() == other.feature() {
                pending[*waiting] = (one.target(), other.target());
                *waiting += 1;
            }
            j += usize::from(other.feature() <= one.feature());
            i += usize::from(is_first);
            let place = places.next().expect("a place");
            *place = if is_first { one } else { other };
        }
        let rest = left[i..].iter().chain(&right[j..]);
        for (&link, place) in rest.zip(places.by_ref()) {
            *place = link;
        }
        self.end = ROOM - places.len();
        self.span[usize::from(lower)] = (start as u16, self.end as u16);
    }
}
