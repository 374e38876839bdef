//! Random records to text and back: the text of a written record is read as that record, and is
//! printed as the same text. Random records to planning tables and back: the import of an export is
//! the written record, and the export of an import is sorted. Random tables to text and back.

mod rows;

use fitting::graph::{Graph, Levels};
use fitting::notation;
use fitting::planning::{self, File};
use fitting::table::Table;
use record_engine::{LONGEST_RECORD, Row, import, rewrite};
use reference::random::{self, Ranges, Shape, Xorshift};
use reference::record;
use rows::exported;

/// The written form of a record.
fn written(table: &Table, record: &[u8]) -> Vec<u8> {
    let mut output = vec![0; LONGEST_RECORD];
    let length = rewrite(table.n, &table.bytes, record, &mut output).expect("an accepted record");
    output.truncate(length);
    output
}

/// A table in text of the lattice of the subsets of three things, which names the features
/// below 32 as well.
fn named() -> Table {
    let mut text = String::from("type a : ab ac\ntype b : ab bc\ntype ab\n");
    text += "type c : ac bc\ntype ac\ntype bc\n";
    for feature in 0..32 {
        text += &format!(
            "feature {feature} f{feature}-{}\n",
            "long".repeat(feature % 4)
        );
    }
    Table::from_text(&text).expect("a table in text")
}

#[test]
fn ten_thousand_random_records_to_text_and_back() {
    let mut random = Xorshift::stored(27);
    let tables = [
        Table::from_bytes(&random::diamond().bytes),
        Table::house(),
        named(),
    ];
    let (mut lines, mut shared, mut ranges) = (0, 0, 0);
    for number in 0..10_000 {
        let table = &tables[number % tables.len()];
        let shape = Shape::any(&mut random).ranged(&mut random, Ranges::Present);
        let record = record::write(&random::graph(&mut random, table.n, &shape));
        let record = written(table, &record);
        let graph = Graph::decode(&record).expect("a record that is written");
        assert_eq!(graph.encode(), record);
        let text = notation::write(table, &graph);
        let read = notation::read(table, &text).expect("what is printed is read");
        assert_eq!(written(table, &read.graph.encode()), record, "{text}");
        let again = Graph::decode(&read.graph.encode()).expect("a record of a text");
        assert_eq!(notation::write(table, &again), text);
        lines += text.lines().count();
        shared += graph.capitals().iter().flatten().count();
        let levels = graph.nodes.iter().map(|node| node.levels);
        ranges += levels.filter(|&levels| levels != Levels::FULL).count();
    }
    // Texts of many lines, shared nodes and ranges came up.
    let enough = lines > 100_000 && shared > 50_000 && ranges > 50_000;
    assert!(enough || !random::is_stored(), "{lines} {shared} {ranges}");
}

#[test]
fn records_in_any_numbering_have_one_text() {
    let mut random = Xorshift::stored(28);
    let table = Table::from_bytes(&random::diamond().bytes);
    for _ in 0..1_000 {
        let shape = Shape::small(&mut random, 12, 4);
        let graph = random::graph(&mut random, table.n, &shape);
        let other = random::renumbered(&mut random, &graph);
        let [one, two] = [graph, other].map(|graph| {
            let written = written(&table, &record::write(&graph));
            notation::write(&table, &Graph::decode(&written).expect("a written record"))
        });
        assert_eq!(one, two);
    }
}

#[test]
fn random_tables_to_text_and_back() {
    let mut random = Xorshift::stored(38);
    let (mut wide, mut listed) = (0, 0);
    for _ in 0..2_000 {
        let bytes = random::valid_table(&mut random).bytes;
        let mut table = Table::from_bytes(&bytes);
        // Types without a name get one, and then the text states the same table.
        let text = table.text();
        let mut named = Table::from_text(&text).unwrap_or_else(|fault| panic!("{fault:?}"));
        assert_eq!(named.bytes, bytes, "{text}");
        assert_eq!(named.text(), text);
        if random.chance(1, 2) {
            let list = (0..64).map(|_| random.pick(table.n) as u8).collect();
            named.list = Some(list);
            table = Table::from_text(&named.text()).unwrap_or_else(|fault| panic!("{fault:?}"));
            assert_eq!((&table.bytes, &table.list), (&named.bytes, &named.list));
            assert_ne!(table.fingerprint(), Table::from_bytes(&bytes).fingerprint());
            listed += 1;
        }
        wide += usize::from(table.n > 8);
    }
    let enough = wide > 100 && listed > 500;
    assert!(enough || !random::is_stored(), "{wide} {listed}");
    assert_eq!(
        Table::from_text("house").map(|table| table.text()),
        Ok("house\n".to_string())
    );
}

/// The record of a planning table as CSV.
fn imported(table: &Table, files: &[String]) -> Vec<u8> {
    let files = files.iter().map(|text| File::new("f", text)).collect();
    let read = planning::read(table, files).unwrap_or_else(|message| panic!("{message}"));
    let mut output = vec![0; LONGEST_RECORD];
    let nodes = read.nodes.concat();
    let length = import(table.n, &table.bytes, &read.rows, &nodes, &mut output).expect("accepted");
    output.truncate(length);
    output
}

/// CSV as another program may write it: other separators and line ends, quotation marks,
/// blanks, empty cells and lines, a full range left out, and the last line open.
fn spelled(random: &mut Xorshift, csv: &str) -> String {
    let separator = *random.choose(&[",", ";", "\t", " , "]);
    let end = *random.choose(&["\n", "\r\n", "\r", ",,\n\n"]);
    let shorter = csv.replace(",0,255\n", "\n");
    let csv = *random.choose(&[csv, &shorter]);
    let mut lines = Vec::new();
    for line in csv.lines() {
        let cells = line.split(',').map(|cell| match random.chance(1, 4) {
            true => format!("\"{cell}\""),
            false => cell.to_string(),
        });
        lines.push(cells.collect::<Vec<_>>().join(separator));
    }
    lines.join(&end.replace(',', separator))
}

#[test]
fn ten_thousand_random_records_to_planning_tables_and_back() {
    let mut random = Xorshift::stored(34);
    let tables = [
        Table::from_bytes(&random::diamond().bytes),
        Table::house(),
        named(),
    ];
    let (mut rows, mut ranges) = (0, 0);
    for number in 0..10_000 {
        let table = &tables[number % tables.len()];
        let shape = Shape::any(&mut random).ranged(&mut random, Ranges::Present);
        let record = record::write(&random::graph(&mut random, table.n, &shape));
        let (links, nodes) = exported(table, &record);
        rows += links.len();
        ranges += nodes.iter().filter(|node| node[1..] != [0, 255]).count();
        let (links, nodes) = (
            planning::links(table, &links),
            planning::nodes(table, &nodes),
        );
        let mut files = match random.pick(3) {
            0 => vec![format!("{nodes}\n{links}")],
            1 => vec![nodes, links],
            _ => vec![links, nodes],
        };
        if random.chance(1, 2) {
            files = files.iter().map(|csv| spelled(&mut random, csv)).collect();
        }
        assert_eq!(
            imported(table, &files),
            written(table, &record),
            "{files:?}"
        );
    }
    let enough = rows > 100_000 && ranges > 50_000;
    assert!(enough || !random::is_stored(), "{rows} {ranges}");
}

#[test]
fn planning_tables_in_any_order_are_exported_sorted() {
    let mut random = Xorshift::stored(35);
    let table = named();
    let (mut unsorted, mut renumbered) = (0, 0);
    for _ in 0..2_000 {
        let shape = Shape::small(&mut random, 12, 4).ranged(&mut random, Ranges::Present);
        let graph = random::graph(&mut random, table.n, &shape);
        let sorted = exported(&table, &record::write(&graph));
        let other = random::renumbered(&mut random, &graph);
        let other = Graph::decode(&record::write(&other)).expect("a record");
        let (mut rows, mut nodes) = (Vec::new(), Vec::new());
        for (parent, node) in other.nodes.iter().enumerate() {
            nodes.push([node.node_type, node.levels.lowest, node.levels.highest]);
            rows.extend(node.links.iter().map(|link| Row {
                parent: parent as u8,
                feature: link.feature,
                target: link.target as u8,
            }));
        }
        random.shuffle(&mut rows);
        unsorted += usize::from(!rows.is_sorted());
        renumbered += usize::from(nodes != sorted.1);
        let nodes = planning::nodes(&table, &nodes);
        let mut lines: Vec<&str> = nodes.lines().collect();
        random.shuffle(&mut lines[1..]);
        let files = [planning::links(&table, &rows), lines.join("\n")];
        assert_eq!(exported(&table, &imported(&table, &files)), sorted);
        assert!(sorted.0.is_sorted_by_key(|row| (row.parent, row.feature)));
    }
    let enough = unsorted > 1_000 && renumbered > 1_000;
    assert!(enough || !random::is_stored(), "{unsorted} {renumbered}");
}
