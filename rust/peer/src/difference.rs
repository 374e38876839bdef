//! The difference of g and s. The nodes of s have their written numbers, and a map from the nodes
//! of g to those of s shows that s is below g. If a node has no wanted type, the refusal is 13.

use crate::Refusal;
use crate::classes::Classes;
use crate::graph::{Graph, Link};
use crate::lists::Ranks;
use crate::range::Range;
use crate::table::Table;

/// No link of g lies over the link.
const BARE: u8 = u8::MAX;
/// The group has no link so far.
const NONE: u16 = u16::MAX;

/// Why a link is kept: nothing of g lies over it; else its node has two or more groups; else its
/// node has a wanted label, or a link that leaves its node is kept.
const NOTHING_OVER: u8 = 1;
const GROUPS_MEET: u8 = 2;
const WANTED: u8 = 3;

/// Makes the difference and, if asked for, the reasons for its links, in the order of the links in
/// `rest`. A link of s is known by its place in s; places are in the order of parent and feature.
pub fn difference(
    table: &Table,
    ranks: &Ranks,
    g: &Graph,
    s: &Graph,
    map: &[u8; 256],
    rest: &mut Graph,
    mut reasons: Option<&mut [u8; 2048]>,
) -> Result<(), Refusal> {
    let top = (table.n - 1) as u8;
    // For each link of s, a node of g that a link of g over it enters. Links whose nodes are in one
    // class are in one group.
    let mut owner = [BARE; 2048];
    let mut groups = Classes::<256>::new();
    // For each node of s, the types below all types of g over it, and the overlap of the ranges of
    // g over it.
    let mut over = [table.down[usize::from(top)]; 256];
    let mut range_over = [Range::FULL; 256];
    for (node, &image) in map[..g.nodes].iter().enumerate() {
        let image = usize::from(image);
        over[image] &= table.down[usize::from(g.types[node])];
        range_over[image] = range_over[image].overlap(g.ranges[node]);
        let mut below = owner[s.places(image)].iter_mut().zip(s.row(image));
        for link in g.row(node) {
            let found = below.find(|(_, other)| other.feature() == link.feature());
            let (owner, _) = found.expect("a path of g is one of s");
            if *owner == BARE {
                *owner = link.target() as u8;
                continue;
            }
            let x = groups.find(u16::from(*owner));
            let y = groups.find(link.target() as u16);
            if x != y {
                groups.put_under(x.min(y), x.max(y));
            }
        }
    }
    // The least link of each group.
    let mut least = [NONE; 256];
    let mut leads = [false; 2048];
    let mut leaders = [0u16; 256];
    let mut has_bare = [false; 256];
    for (place, (link, &owner)) in s.all_links().iter().zip(&owner).enumerate() {
        if owner == BARE {
            has_bare[link.target()] = true;
            leads[place] = true;
        } else {
            let first = &mut least[usize::from(groups.find(u16::from(owner)))];
            if *first == NONE {
                *first = place as u16;
                leads[place] = true;
            } else {
                let rank = |link: Link| ranks[usize::from(link.feature())];
                let earlier = usize::from(*first);
                if rank(*link) < rank(s.links[earlier]) {
                    *first = place as u16;
                    leads[place] = true;
                    leads[earlier] = false;
                }
                continue;
            }
        }
        leaders[link.target()] += 1;
    }
    let mut wanted = [0u8; 256];
    let mut kept = [false; 256];
    for node in 0..s.nodes {
        let greatest = table.wanted(s.types[node], over[node]);
        wanted[node] = greatest.ok_or(Refusal::of(13))?;
        rest.ranges[node] = s.ranges[node].wanted(range_over[node]);
        kept[node] = node == 0
            || leaders[node] >= 2
            || has_bare[node]
            || wanted[node] != top
            || rest.ranges[node] != Range::FULL;
    }
    keep_above(s, &leads, &mut kept);
    rest.nodes = s.nodes;
    rest.types = wanted;
    let mut count = 0;
    for node in 0..s.nodes {
        for (place, link) in s.places(node).zip(s.row(node)) {
            let target = link.target();
            if leads[place] && kept[target] {
                if let Some(reasons) = reasons.as_deref_mut() {
                    reasons[count] = match owner[place] {
                        BARE => NOTHING_OVER,
                        _ if leaders[target] >= 2 => GROUPS_MEET,
                        _ => WANTED,
                    };
                }
                rest.links[count] = *link;
                count += 1;
            }
        }
        rest.first[node + 1] = count as u16;
    }
    Ok(())
}

/// Keeps every node from which a leading link leaves to a kept one.
fn keep_above(s: &Graph, leads: &[bool; 2048], kept: &mut [bool; 256]) {
    // The leading links by the node that they enter.
    let mut first = [0u16; 257];
    for (link, &leads) in s.all_links().iter().zip(leads) {
        first[link.target() + 1] += u16::from(leads);
    }
    for node in 0..s.nodes {
        first[node + 1] += first[node];
    }
    let mut next = first;
    let mut parents = [0u8; 2048];
    for node in 0..s.nodes {
        for (link, &leads) in s.row(node).iter().zip(&leads[s.places(node)]) {
            if leads {
                let at = &mut next[link.target()];
                parents[usize::from(*at)] = node as u8;
                *at += 1;
            }
        }
    }
    let mut queue = [0u8; 256];
    let mut end = 0;
    for (node, &is_kept) in kept[..s.nodes].iter().enumerate() {
        if is_kept {
            queue[end] = node as u8;
            end += 1;
        }
    }
    let mut head = 0;
    while head < end {
        let node = usize::from(queue[head]);
        for &parent in &parents[usize::from(first[node])..usize::from(first[node + 1])] {
            if !kept[usize::from(parent)] {
                kept[usize::from(parent)] = true;
                queue[end] = parent;
                end += 1;
            }
        }
        head += 1;
    }
}
