//! Prints the rows that were measured, and the summary.

use crate::calls::OPERATIONS;
use crate::inputs::{LARGER, SIZES, SMALLER};
use crate::rows::Row;

/// A row with its costs by the engine and by the peer.
pub struct Measured<'a> {
    pub row: &'a Row,
    /// Instructions, if valgrind is installed.
    pub instructions: Option<[f64; 2]>,
    /// Microseconds, if times are asked for.
    pub times: Option<[f64; 2]>,
}

/// The unit of a cost.
type Cost<'a> = (&'static str, fn(&Measured<'a>) -> Option<[f64; 2]>);

fn costs<'a>() -> [Cost<'a>; 2] {
    [
        ("instructions", |measured| measured.instructions),
        ("times", |measured| measured.times),
    ]
}

pub fn print_head() {
    println!("Instructions and microseconds of a call\n");
    println!(
        "| call | types | nodes | engine, instr. | peer | / peer | engine, µs | peer | / peer |"
    );
    println!("|---|---|---|---|---|---|---|---|---|");
}

pub fn print_row(measured: &Measured) {
    let Row {
        call, types, size, ..
    } = measured.row;
    let instructions = cells(measured.instructions);
    let times = cells(measured.times);
    println!(
        "| {call} | {types} | {} | {instructions} | {times} |",
        size.name
    );
}

/// The costs by the engine and by the peer, and their ratio.
fn cells(both: Option<[f64; 2]>) -> String {
    match both {
        Some([engine, peer]) => {
            format!("{} | {} | {:.2}", short(engine), short(peer), engine / peer)
        }
        None => "- | - | -".to_string(),
    }
}

/// A number as text, with about three digits or more.
fn short(number: f64) -> String {
    let places = match number.abs() {
        ..10.0 => 3,
        ..100.0 => 2,
        ..1000.0 => 1,
        _ => 0,
    };
    format!("{number:.places$}")
}

/// Prints the summary of all rows.
pub fn print_all(all: &[Measured]) {
    print_growth(all);
    print_opening(all);
    print_means(all);
    print_worst(all);
}

/// What each node costs, by call and table.
fn print_growth(all: &[Measured]) {
    let pairs: Vec<[&Measured; 2]> = all
        .iter()
        .filter(|small| small.row.size == SMALLER)
        .filter_map(|small| {
            let Row { call, types, .. } = small.row;
            let large = all.iter().find(|large| {
                large.row.size == LARGER && large.row.call == *call && large.row.types == *types
            });
            large.map(|large| [small, large])
        })
        .collect();
    if pairs.is_empty() {
        return;
    }
    println!(
        "\nWhat each node costs, from {} nodes to {}, in instructions and nanoseconds\n",
        SMALLER.name, LARGER.name
    );
    println!("| call | types | engine, instr. | peer | / peer | engine, ns | peer | / peer |");
    println!("|---|---|---|---|---|---|---|---|");
    let nodes = (LARGER.nodes - SMALLER.nodes) as f64;
    for [small, large] in pairs {
        let [instructions, times] = costs().map(|(_, cost)| less(cost(large), cost(small)));
        let instructions = instructions.map(|both| both.map(|cost| cost / nodes));
        let times = times.map(|both| both.map(|cost| cost * 1000.0 / nodes));
        let Row { call, types, .. } = small.row;
        println!(
            "| {call} | {types} | {} | {} |",
            cells(instructions),
            cells(times)
        );
    }
}

/// The costs of one row minus those of another.
fn less(one: Option<[f64; 2]>, other: Option<[f64; 2]>) -> Option<[f64; 2]> {
    let ([one_engine, one_peer], [engine, peer]) = (one?, other?);
    Some([one_engine - engine, one_peer - peer])
}

/// What 64 types cost more than 4 types: the cost of rewriting a few nodes over the subsets, minus
/// the cost over the diamond.
fn print_opening(all: &[Measured]) {
    let rewriting = |types: &str| {
        all.iter().find(|measured| {
            let Row {
                call, types: of, ..
            } = measured.row;
            *call == OPERATIONS[0] && of == types && measured.row.size == SIZES[0]
        })
    };
    let both = rewriting("64 subsets").zip(rewriting("4 diamond"));
    let Some((many, few)) = both else { return };
    println!(
        "\nOpening 64 types: a rewriting of 8 nodes over the subsets less that over the diamond\n"
    );
    println!("| | engine | peer | / peer |");
    println!("|---|---|---|---|");
    for (name, cost) in costs() {
        println!("| {name} | {} |", cells(less(cost(many), cost(few))));
    }
}

/// Whether a row is of a kind.
type Test<'a> = &'a dyn Fn(&Row) -> bool;

/// The geometric means of the ratios.
fn print_means(all: &[Measured]) {
    println!("\nGeometric means of engine / peer\n");
    println!("| rows | number | by instructions | by times |");
    println!("|---|---|---|---|");
    let is_operation = |row: &Row| OPERATIONS.contains(&row.call);
    let is_store = |row: &Row| row.call.starts_with("store");
    let kinds: [(&str, Test); 4] = [
        ("the five operations", &is_operation),
        ("stores", &is_store),
        ("other calls", &|row| !is_operation(row) && !is_store(row)),
        ("all", &|_| true),
    ];
    for (name, is_of) in kinds {
        let some: Vec<&Measured> = all.iter().filter(|measured| is_of(measured.row)).collect();
        if some.is_empty() {
            continue;
        }
        let means = costs().map(|(_, cost)| {
            let ratios: Option<Vec<f64>> = some
                .iter()
                .map(|measured| cost(measured).map(ratio))
                .collect();
            match ratios {
                Some(ratios) => format!("{:.2}", geometric_mean(&ratios)),
                None => "-".to_string(),
            }
        });
        println!("| {name} | {} | {} | {} |", some.len(), means[0], means[1]);
    }
}

fn ratio([engine, peer]: [f64; 2]) -> f64 {
    engine / peer
}

fn geometric_mean(ratios: &[f64]) -> f64 {
    let logarithms: f64 = ratios.iter().map(|ratio| ratio.ln()).sum();
    (logarithms / ratios.len() as f64).exp()
}

/// How many rows are called the worst.
const WORST: usize = 12;

/// The rows with the greatest ratios.
fn print_worst(all: &[Measured]) {
    for (name, cost) in costs() {
        let with_ratio = |measured| cost(measured).map(|both| (ratio(both), measured));
        let mut ratios: Vec<(f64, &Measured)> = all.iter().filter_map(with_ratio).collect();
        if ratios.is_empty() {
            continue;
        }
        ratios.sort_by(|(a, _), (b, _)| b.total_cmp(a));
        ratios.truncate(WORST);
        println!("\nThe worst by {name}\n");
        println!("| row | / peer |");
        println!("|---|---|");
        for (ratio, measured) in ratios {
            println!("| {} | {ratio:.2} |", measured.row.name());
        }
    }
}
