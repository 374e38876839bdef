//! Draws a graph as a picture in Graphviz's DOT language. A node shows the name of its type, and
//! a link has its feature in its middle. Features stand in their order, and the root has a mark.
//! A shared node is tinted, and has a second border and the capital that it has in text. If the
//! graph is drawn over a general graph, the parts that the difference keeps are bold, with their
//! reasons, and the parts that the general graph gives are grey.

mod types;

use crate::graph::{Graph, Levels, Link, Node};
use crate::names::cut;
use crate::table::Table;
use crate::why::{Kept, Said, meaning, word};
use record_engine::Reason;
pub use types::types;

/// With more links than this, `dot` is told to lay the picture out fast: with straight lines,
/// labels at the tails, and few attempts at fewer crossings. Otherwise it takes minutes.
const MANY_LINKS: usize = 300;

/// With more links than this, `dot` would still take seconds, for a picture that is too dense to
/// read. The nodes then get their places here.
const TOO_MANY_LINKS: usize = 1000;

/// If a row would be wider than this, in points, the picture goes from left to right.
const WIDEST_ROW: usize = 800;

/// The distance of two columns and of two rows, in points. The next node of a row stands four
/// columns further.
const COLUMN: i64 = 45;
const ROW: i64 = 90;

/// How strongly a part of a picture is drawn.
const GREY_LINE: &str = "color=\"#9a9a9a\"";
const GREY_TEXT: &str = "fontcolor=\"#767676\"";
const BOLD: &str = "penwidth=2.5";
const SHARED: &str = "peripheries=2, fillcolor=\"#dfeaff\"";

/// The lines that every picture begins with.
const HEAD: &str = concat!(
    "digraph fitting {\n",
    "  graph [fontname=\"Helvetica\", fontsize=12, labeljust=l, nodesep=0.3, ranksep=0.25];\n",
    "  node [shape=box, style=\"rounded,filled\", fillcolor=white, fontname=\"Helvetica\", fontsize=14];\n",
    "  edge [fontname=\"Helvetica\", fontsize=13, arrowsize=0.8];\n",
);

/// The lines that make a picture go from left to right, with rows close to each other.
const RIGHTWARD: &str = concat!(
    "  graph [rankdir=LR, nodesep=0.12, ranksep=0.3];\n",
    "  node [height=0.3, margin=\"0.12,0.05\"];\n",
);

/// The general graph over which a specific one is drawn.
#[derive(Clone, Copy)]
pub struct Over<'a> {
    /// What the difference keeps.
    pub kept: &'a Kept,
    /// The name of the general graph.
    pub general: &'a str,
    /// Whether what is not kept is left out.
    pub kept_only: bool,
    /// Whether the picture tells what its looks mean.
    pub legend: bool,
}

/// The picture of an accepted graph.
pub fn dot(table: &Table, graph: &Graph) -> String {
    picture(table, graph, None)
}

/// The picture of a specific graph over a general one.
pub fn dot_over(table: &Table, graph: &Graph, over: Over) -> String {
    picture(table, graph, Some(over))
}

fn picture(table: &Table, graph: &Graph, over: Option<Over>) -> String {
    let is_drawn = |parent, link: &Link| match over {
        Some(over) if over.kept_only => over.kept.links.contains_key(&(parent, link.feature)),
        _ => true,
    };
    // The graph with only the links that are drawn. Numbers and capitals are those of the whole
    // graph.
    let mut drawn = graph.clone();
    for (parent, node) in drawn.nodes.iter_mut().enumerate() {
        node.links.retain(|link| is_drawn(parent, link));
    }
    let rows = rows(&drawn);
    let nodes: Vec<usize> = (0..rows.len()).filter(|&n| rows[n].is_some()).collect();
    let links = drawn.link_count();
    let many = links > MANY_LINKS;
    let mut dot = String::from(HEAD);
    let places = (links > TOO_MANY_LINKS).then(|| places(&rows));
    if places.is_some() {
        dot += "  graph [layout=nop, splines=line];\n";
    } else {
        if is_wide(table, &drawn, &rows) {
            dot += RIGHTWARD;
        }
        dot += match many {
            true => {
                "  graph [splines=line, ranksep=0.7, mclimit=0.05, nslimit=0.05, nslimit1=0.05];\n"
            }
            false => "  graph [ordering=out];\n",
        };
    }
    if let Some(over) = over.filter(|over| over.legend) {
        dot += &format!("  {};\n", label("label", &legend(over), "\\l"));
    }
    let kept = over.map(|over| over.kept);
    let capitals = graph.capitals();
    for &number in &nodes {
        let said = kept.map(|kept| kept.nodes.get(&number));
        let place = places.as_ref().map(|places| places[number]);
        let (drawn, capital) = (&graph.nodes[number], capitals[number].as_deref());
        dot += &node(table, drawn, number, capital, said, place);
    }
    let at_root = kept.map(|kept| matches!(kept.nodes.get(&0), Some(Some(_))));
    dot += &root(at_root, places.as_ref().map(|places| places[0]));
    for &parent in &nodes {
        for link in &drawn.nodes[parent].links {
            let reason = kept.map(|kept| kept.links.get(&(parent, link.feature)).copied());
            dot += &lines(table, parent, link, reason, many);
        }
    }
    dot + "}\n"
}

/// The statement of a node, at a place in points if it has one. Over a general graph, it shows
/// whether the difference keeps the node, and what the difference says there, if anything.
fn node(
    table: &Table,
    node: &Node,
    number: usize,
    capital: Option<&str>,
    over: Option<Option<&Option<Said>>>,
    place: Option<[i64; 2]>,
) -> String {
    let own = words(table, node);
    let mut text = own.clone();
    let mut looks = Vec::new();
    if let Some(capital) = capital {
        text = format!("{capital} {own}");
        looks.push(SHARED);
    }
    match over {
        None => {}
        Some(None) => looks.extend([GREY_LINE, GREY_TEXT]),
        Some(Some(said)) => {
            looks.push(BOLD);
            match said {
                // What is new was nothing before.
                Some(Said { over, .. }) if table.says_nothing(over) => {}
                Some(Said { over, added, .. }) if added.levels != Levels::FULL => {
                    text += &format!("\nwas {}", words(table, over));
                }
                Some(Said { own, added, .. }) if added.node_type != own.node_type => {
                    text += &format!("\nadds {}", words(table, added));
                }
                None if !table.says_nothing(node) => looks.push(GREY_TEXT),
                _ => {}
            }
        }
    }
    let text = label("label", &text, "\\n");
    let place = place.map(position);
    looks.extend(place.as_deref());
    statement(&format!("n{number}"), &[&[&text[..]], &looks[..]].concat())
}

/// What a node says, as a picture shows it.
fn words(table: &Table, node: &Node) -> String {
    let name = cut(&table.type_name(node.node_type));
    match node.levels {
        Levels::FULL => name,
        levels => format!("{name}{levels}"),
    }
}

/// The mark of the root. Over a general graph, it shows whether the difference says something at
/// the root.
fn root(over: Option<bool>, place: Option<[i64; 2]>) -> String {
    let (reason, line, words): (_, &[&str], &[&str]) = match over {
        None => ("", &[], &[]),
        Some(false) => ("", &[GREY_LINE], &[GREY_TEXT]),
        Some(true) => (word(Reason::Wanted), &[BOLD], &[]),
    };
    let text = label("label", format!("root\n{reason}").trim_end(), "\\n");
    let place = place.map(|[x, y]| position([x, y + ROW]));
    let place: Vec<&str> = place.as_deref().into_iter().collect();
    [
        statement(
            "root",
            &[&["shape=plain, fontsize=13", &text], words, &place[..]].concat(),
        ),
        statement("root -> n0", line),
    ]
    .concat()
}

/// For each node, the number of links of the longest path from the root; none if there is no path.
fn rows(graph: &Graph) -> Vec<Option<usize>> {
    let mut rows = vec![None; graph.nodes.len()];
    rows[0] = Some(0);
    // A path has fewer links than there are nodes, since no node reaches itself.
    for _ in &graph.nodes {
        for (parent, node) in graph.nodes.iter().enumerate() {
            let Some(row) = rows[parent] else {
                continue;
            };
            for link in &node.links {
                rows[link.target] = rows[link.target].max(Some(row + 1));
            }
        }
    }
    rows
}

/// Whether a row of nodes or of features would be too wide if the rows stood below each other.
fn is_wide(table: &Table, graph: &Graph, rows: &[Option<usize>]) -> bool {
    let mut widths = vec![[0, 0]; rows.len() + 1];
    for (node, row) in graph.nodes.iter().zip(rows) {
        let &Some(row) = row else {
            continue;
        };
        let text = words(table, node).chars().count();
        widths[row][0] += (8 * text + 16).max(54) + 22;
        for link in &node.links {
            let text = cut(&table.feature_name(link.feature)).chars().count();
            widths[row][1] += 7 * text + 26;
        }
    }
    widths.iter().flatten().any(|&width| width > WIDEST_ROW)
}

/// The places of the nodes, in points. Nodes stand in their rows, and in a row by number. The rows
/// begin at four different columns in turn, so that fewer lines go through nodes.
fn places(rows: &[Option<usize>]) -> Vec<[i64; 2]> {
    let place = |(number, row): (usize, &Option<usize>)| {
        let before = rows[..number].iter().filter(|&other| other == row);
        let row = row.unwrap_or(0) as i64;
        [COLUMN * (4 * before.count() as i64 + row % 4), -ROW * row]
    };
    rows.iter().enumerate().map(place).collect()
}

/// A place as an attribute.
fn position([x, y]: [i64; 2]) -> String {
    format!("pos=\"{x},{y}\"")
}

/// The statement of a link, with its feature in the middle, or at its tail if there are many links.
/// Over a general graph, it shows why the difference keeps the link, if it does.
fn lines(
    table: &Table,
    parent: usize,
    link: &Link,
    over: Option<Option<Reason>>,
    many: bool,
) -> String {
    let mut text = cut(&table.feature_name(link.feature));
    let mut looks: (&[&str], &[&str]) = (&[], &[]);
    match over {
        None => {}
        Some(None) => looks = (&[GREY_LINE], &[GREY_TEXT]),
        Some(Some(reason)) => {
            text += &format!("\n{}", word(reason));
            looks.0 = &[BOLD];
        }
    }
    let (line, words) = looks;
    let (from, to) = (format!("n{parent}"), format!("n{}", link.target));
    if many {
        let text = label("taillabel", &text, "\\n");
        let attributes = [&[&text[..]], line, words].concat();
        return statement(&format!("{from} -> {to}"), &attributes);
    }
    let middle = format!("{from}_{}", link.feature);
    let text = label("label", &text, "\\n");
    let texts = [&["shape=plain, fontsize=13", &text], words].concat();
    let tail = [&["dir=none"], line].concat();
    // The feature stands near the node that it leads to.
    let head = [&["weight=8"], line].concat();
    [
        statement(&middle, &texts),
        statement(&format!("{from} -> {middle}"), &tail),
        statement(&format!("{middle} -> {to}"), &head),
    ]
    .concat()
}

/// A statement with its attributes.
fn statement(what: &str, attributes: &[&str]) -> String {
    match attributes {
        [] => format!("  {what};\n"),
        _ => format!("  {what} [{}];\n", attributes.join(", ")),
    }
}

/// The legend of a picture over a general graph. It explains only the reasons that occur.
fn legend(over: Over) -> String {
    let Over { kept, general, .. } = over;
    let mut legend = match over.kept_only {
        true => format!("\nall that is drawn is kept by the difference from {general}\n"),
        false => format!("\nbold: kept by the difference from {general}\n"),
    };
    let at_root = matches!(kept.nodes.get(&0), Some(Some(_)));
    for reason in [Reason::Bare, Reason::Groups, Reason::Wanted] {
        let comes_up = kept.links.values().any(|&other| other == reason);
        if comes_up || at_root && reason == Reason::Wanted {
            legend += &format!("{}: {}\n", word(reason), meaning(reason, general));
        }
    }
    match over.kept_only {
        true => legend,
        false => legend + &format!("grey: given by {general}\n"),
    }
}

/// A text as an attribute, with DOT's mark for the end of a line. DOT reads `&` as the beginning of
/// a character's name, so it is escaped.
fn label(name: &str, text: &str, end: &str) -> String {
    let text = text.replace('\\', "\\\\").replace('"', "\\\"");
    let text = text.replace('&', "&amp;");
    format!("{name}=\"{}\"", text.replace('\n', end))
}
