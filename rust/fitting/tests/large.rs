//! The largest records. Each is shown, read again, drawn, and turned into a planning table and back
//! in under a second. Also results that no record can hold.

mod tool;

use std::collections::BTreeSet;
use std::fs;
use std::path::Path;
use std::time::{Duration, Instant};
use tool::{folder, output, tool};

const TABLE: &str = "examples/fitting/diamond.table";

/// A record of 255 nodes and 2,048 links: each node has links to the nodes after it, as
/// many as there are features and links left, and the nodes are in any order.
fn largest() -> Vec<u8> {
    let place = |node: usize| ((node * 97) % 255) as u8;
    let mut spare: usize = 2048 - 254;
    let mut nodes = vec![Vec::new(); 255];
    for node in 0..255 {
        let after: usize = 254 - node;
        let more = after.saturating_sub(1).min(8).min(spare);
        spare -= more;
        let links = if after == 0 { 0 } else { 1 + more };
        let mut bytes = vec![1 + (node % 3) as u8];
        bytes.extend(((1u64 << links) - 1).to_le_bytes());
        bytes.extend((0..links).map(|link| place(node + 1 + link)));
        nodes[usize::from(place(node))] = bytes;
    }
    assert_eq!(spare, 0);
    let record = [vec![255], nodes.concat()].concat();
    assert_eq!(record.len(), 1 + 9 * 255 + 2048);
    record
}

/// What the tool prints, in under a second.
fn quickly(folder: &Path, arguments: &[&str], input: &[u8]) -> Vec<u8> {
    let begin = Instant::now();
    let told = output(tool(folder, arguments), input);
    let taken = begin.elapsed();
    let error = String::from_utf8_lossy(&told.stderr);
    assert!(told.status.success(), "{arguments:?}\n{error}");
    assert!(taken < Duration::from_secs(1), "{arguments:?}: {taken:?}");
    told.stdout
}

#[test]
fn the_largest_record_is_shown_read_and_drawn() {
    let folder = folder("largest");
    let record = largest();
    let checked = quickly(&folder, &["check", TABLE, "-"], &record);
    let checked = String::from_utf8(checked).expect("text");
    assert!(
        checked.contains("form, 255 nodes and 2048 links\n"),
        "{checked}"
    );
    let text = quickly(&folder, &["show", TABLE, "-"], &record);
    assert_eq!(quickly(&folder, &["show", TABLE, "-"], &text), text);
    let written = quickly(&folder, &["make", TABLE, "-", "-o", "-"], &record);
    assert_eq!(
        quickly(&folder, &["make", TABLE, "-", "-o", "-"], &text),
        written
    );
    let dot = quickly(&folder, &["draw", TABLE, "-"], &record);
    let dot = String::from_utf8(dot).expect("text");
    // The root's mark has an arrow too.
    assert_eq!(dot.matches(" -> ").count(), 2048 + 1);
    assert!(dot.contains("splines=line") && dot.contains(" -> n1 [taillabel="));
    assert!(dot.matches("peripheries=2").count() > 200);
    // Each node has a place of its own, so that `dot` need not look for one.
    assert!(dot.contains("layout=nop"));
    let places = dot.split("pos=\"").skip(1);
    let places: BTreeSet<&str> = places.filter_map(|rest| rest.split('"').next()).collect();
    assert_eq!(places.len(), 255 + 1);
}

#[test]
fn the_largest_difference_is_told_and_drawn() {
    let folder = folder("largest-difference");
    let record = largest();
    fs::write(folder.join("top"), "top").expect("written");
    let told = quickly(
        &folder,
        &["difference", "--why", TABLE, "top", "-"],
        &record,
    );
    let told = String::from_utf8(told).expect("text");
    assert_eq!(
        told.matches("  new    top has no such link\n").count(),
        2048
    );
    let dot = quickly(&folder, &["draw", TABLE, "-", "--over", "top"], &record);
    let dot = String::from_utf8(dot).expect("text");
    assert_eq!(dot.matches("\\nnew\", penwidth=2.5];\n").count(), 2048);
}

#[test]
fn the_largest_record_is_exported_and_imported() {
    let folder = folder("largest-planning");
    let record = largest();
    let written = quickly(&folder, &["make", TABLE, "-", "-o", "-"], &record);
    let planning = quickly(&folder, &["export", TABLE, "-"], &record);
    assert_eq!(
        planning.iter().filter(|&&b| b == b'\n').count(),
        255 + 2048 + 3
    );
    let imported = quickly(&folder, &["import", TABLE, "-", "-o", "-"], &planning);
    assert_eq!(imported, written);
}

/// What the tool tells of a planning table that it refuses.
fn refused(folder: &Path, planning: &str) -> String {
    let told = output(tool(folder, &["import", TABLE, "-"]), planning.as_bytes());
    assert_eq!(told.status.code(), Some(1));
    String::from_utf8(told.stderr).expect("text")
}

#[test]
fn a_planning_table_of_too_many_parts_is_refused() {
    let folder = folder("too-many-rows");
    // 33 nodes with 64 links each, each link of a node to the next.
    let nodes: String = (0..34).map(|node| format!("{node},top\n")).collect();
    let link = |node: usize, feature: usize| format!("{node},{feature},{}\n", node + 1);
    let links = (0..33).flat_map(|node| (0..64).map(move |feature| link(node, feature)));
    let links: String = links.collect();
    assert_eq!(
        refused(
            &folder,
            &format!("node,type\n{nodes}parent,feature,target\n{links}")
        ),
        "refused 4: the record is malformed\n\
         standard input:2085:1: here begins link 2049 of 2112\n    \
         32,0,33\n    ^\n  \
         leave links out: a record has at most 2,048\n"
    );
    let nodes: String = (0..256).map(|node| format!("{node},top\n")).collect();
    assert_eq!(
        refused(
            &folder,
            &format!("parent,feature,target\nnode,type\n{nodes}")
        ),
        "refused 4: the record is malformed\n\
         standard input:258:1: there are 256 nodes\n    \
         255,top\n    ^\n  \
         leave nodes out: a record has at most 255\n"
    );
}

/// A chain of nodes on one feature, as text.
fn chain(nodes: usize, feature: u8) -> String {
    let links = format!("top[{feature}: ").repeat(nodes - 1);
    format!("{links}top{}", "]".repeat(nodes - 1))
}

#[test]
fn results_that_no_record_holds_are_refused() {
    let folder = folder("too-large");
    let write = |name: &str, text: String| fs::write(folder.join(name), text).expect("written");
    write("first", chain(128, 0));
    write("longer", chain(129, 0));
    write("second", chain(128, 1));
    // Case 14: 255 nodes are written, one more is 11.
    let told = output(
        tool(
            &folder,
            &["combine", TABLE, "first", "second", "-o", "both"],
        ),
        b"",
    );
    assert!(told.status.success());
    assert_eq!(fs::read(folder.join("both")).expect("written")[0], 255);
    let told = output(tool(&folder, &["combine", TABLE, "longer", "second"]), b"");
    assert_eq!(told.status.code(), Some(1));
    assert_eq!(
        String::from_utf8(told.stderr).expect("text"),
        "refused 11: the result has more than 255 nodes or 2,048 links\n  \
         it has 256 nodes and 255 links\n  \
         leave parts out, or part the records in smaller ones\n"
    );
    // Paths with equally many features end at one node in each, but not in both.
    write("first", ladder(60, 0, 1));
    write("second", ladder(60, 1, 0));
    let told = output(tool(&folder, &["common", TABLE, "first", "second"]), b"");
    assert_eq!(told.status.code(), Some(1));
    let cause = "\n  it has 620 nodes and 1180 links\n";
    let is_told = |error: Vec<u8>| {
        let error = String::from_utf8(error).expect("text");
        let told = error.starts_with("refused 11: ") && error.contains(cause);
        assert!(told, "{error}");
    };
    is_told(told.stderr);
    // What more than two have in common, of which the first two are the same.
    let files = ["common", TABLE, "first", "first", "second"];
    is_told(output(tool(&folder, &files), b"").stderr);
    let told = output(tool(&folder, &["compare", TABLE, "first", "second"]), b"");
    assert_eq!(told.status.code(), Some(1));
    is_told(told.stderr);
    // A report has the programs alone then.
    let told = output(tool(&folder, &["report", TABLE, "first", "second"]), b"");
    assert!(told.status.success());
    let page = String::from_utf8(told.stdout).expect("text");
    assert!(
        page.contains("<pre>refused 11: ") && page.contains(cause),
        "{page}"
    );
    assert!(!page.contains("and no more") && !page.contains("class=\"reasons\""));
}

/// Nodes in a row, each with a link to the next by one feature, and to the one after that
/// by another, as text.
fn ladder(nodes: usize, near: u8, far: u8) -> String {
    let begin: String = (0..nodes - 1)
        .map(|node| format!("X{node} top[{near}: "))
        .collect();
    let ends = (0..nodes - 1).rev().map(|node| match node + 2 < nodes {
        true => format!(", {far}: X{}]", node + 2),
        false => "]".to_string(),
    });
    format!("{begin}X{} top{}", nodes - 1, ends.collect::<String>())
}

#[test]
fn a_text_of_too_many_parts_is_refused() {
    let folder = folder("too-many");
    let told = output(
        tool(&folder, &["check", TABLE, "-"]),
        chain(255, 0).as_bytes(),
    );
    assert!(told.status.success());
    let told = output(
        tool(&folder, &["check", TABLE, "-"]),
        chain(100_000, 0).as_bytes(),
    );
    assert_eq!(told.status.code(), Some(1));
    let error = String::from_utf8(told.stderr).expect("text");
    assert!(
        error.starts_with("standard input:1:1786: here begins node 256\n"),
        "{error}"
    );
    // 33 nodes with 64 links each, each link of a node to the next.
    let links = |node: usize| -> String {
        (1..64)
            .map(|feature| format!(", {feature}: X{node}"))
            .collect()
    };
    let begin: String = (0..33).map(|node| format!("X{node} top[0: ")).collect();
    let end: String = (1..=33)
        .rev()
        .map(|node| format!("{}]", links(node)))
        .collect();
    let text = format!("{begin}X33 top{end}");
    let told = output(tool(&folder, &["check", TABLE, "-"]), text.as_bytes());
    assert_eq!(
        String::from_utf8(told.stderr).expect("text"),
        "refused 4: the record is malformed\n  standard input: it has 2112 links\n  \
         leave links out: a record has at most 2,048\n"
    );
}
