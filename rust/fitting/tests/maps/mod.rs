//! Forty-three maps of one device in a folder, which are records with 22 electrodes each. Some mean
//! the same with other numbers of nodes. The command `same` finds these.

use fitting::graph::{Graph, Levels, Link, Node};
use std::fs;
use std::path::Path;

/// The types and features of maps, as text.
fn table() -> String {
    let mut text = String::from("type map\ntype electrode\ntype level\n");
    for electrode in 1..=22 {
        text += &format!("feature {electrode} e{electrode}\n");
    }
    text + "feature 40 threshold : electrode\nfeature 41 comfort : electrode\n"
}

/// A map whose levels depend on a number. An electrode that is off is not there, and where
/// `shared` is set neighbouring electrodes have one threshold.
fn map(number: usize, off: &[usize], shared: bool) -> Graph {
    let node = |node_type, levels| Node {
        node_type,
        levels,
        links: Vec::new(),
    };
    let level = |level: usize| Levels {
        lowest: level as u8,
        highest: level as u8,
    };
    let mut nodes = vec![node(1, Levels::FULL)];
    let mut threshold = 0;
    for electrode in (1..=22).filter(|electrode| !off.contains(electrode)) {
        let place = nodes.len();
        nodes.push(node(2, Levels::FULL));
        let link = |feature: usize, target| Link {
            feature: feature as u8,
            target,
        };
        nodes[0].links.push(link(electrode, place));
        if !shared || electrode % 2 == 1 || threshold == 0 {
            threshold = nodes.len();
            nodes.push(node(3, level(90 + electrode + number)));
        }
        let comfort = nodes.len();
        nodes.push(node(3, level(150 + 2 * electrode + number)));
        nodes[place].links = vec![link(40, threshold), link(41, comfort)];
    }
    Graph { nodes }
}

/// The same graph with its nodes numbered from behind, but for the root.
fn renumbered(graph: &Graph) -> Graph {
    let count = graph.nodes.len();
    let place = |node: usize| if node == 0 { 0 } else { count - node };
    let mut nodes = graph.nodes.clone();
    for (number, node) in graph.nodes.iter().enumerate() {
        let links = node.links.iter().map(|link| Link {
            target: place(link.target),
            ..*link
        });
        let links = links.collect();
        nodes[place(number)] = Node {
            links,
            ..node.clone()
        };
    }
    Graph { nodes }
}

/// Writes the table and the folder of maps into a folder.
pub fn store(folder: &Path) {
    fs::create_dir(folder.join("maps")).expect("a folder can be made");
    fs::write(folder.join("device.table"), table()).expect("written");
    let mut count = 0;
    let mut store = |graph: &Graph| {
        count += 1;
        let file = folder.join(format!("maps/map-{count:02}"));
        fs::write(file, graph.encode()).expect("written");
    };
    // Thirty-six maps with other levels, one in three with shared thresholds.
    let maps: Vec<Graph> = (0..36).map(|n| map(n, &[], n % 3 == 0)).collect();
    maps.iter().for_each(&mut store);
    // Three of them again, two in another numbering, one of these twice.
    for graph in [&maps[4], &renumbered(&maps[4]), &renumbered(&maps[9])] {
        store(graph);
    }
    // Four with electrodes off: the broader the fewer there are.
    store(&map(20, &[22], false));
    store(&map(20, &[22, 21], false));
    store(&map(20, &[3, 22, 21], false));
    store(&map(21, &[1], true));
    assert_eq!(count, 43);
}
