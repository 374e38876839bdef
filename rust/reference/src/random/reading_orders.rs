//! Random reading orders (Paper 10), which have each feature once, damaged reading orders, and
//! whole inputs of the calls that take one.

use super::Xorshift;
use super::graphs::{Ranges, Shape, low_pair, pair};
use super::inputs::records_of_pair;
use super::lists::{InputWithList, resize};
use super::tables::{damaged_table, rival_table, valid_table};
use crate::graph::{FEATURES, Feature};

/// All features, each once: mostly in any order, else from the first to the last or from
/// the last to the first.
pub fn reading_order(random: &mut Xorshift) -> Vec<Feature> {
    let mut list: Vec<Feature> = (0..FEATURES as Feature).collect();
    match random.pick(8) {
        0 => {}
        1 => list.reverse(),
        _ => random.shuffle(&mut list),
    }
    list
}

/// The list that has these features first and then the others, lowest first.
pub fn list_beginning(first: &[Feature]) -> Vec<Feature> {
    let others = (0..FEATURES as Feature).filter(|feature| !first.contains(feature));
    first.iter().copied().chain(others).collect()
}

/// The list, damaged: its length is not 64, it has a feature twice, or an entry is no feature.
pub fn damaged_reading_order(random: &mut Xorshift, mut list: Vec<Feature>) -> Vec<Feature> {
    let place = random.pick(FEATURES);
    match random.pick(6) {
        kind @ 0..3 => resize(random, kind, FEATURES, &mut list),
        3 => list.clear(),
        // The feature that stood there is missing then.
        4 => list[place] = list[(place + random.between(1, FEATURES - 1)) % FEATURES],
        _ => {
            let any = random.between(FEATURES, 255);
            list[place] = *random.choose(&[FEATURES, any]) as Feature;
        }
    }
    list
}

/// A whole input: mostly valid, sometimes damaged in any of its parts. In every other the
/// second graph is well below the first.
pub fn input_with_reading_order(random: &mut Xorshift, ranges: Ranges) -> InputWithList {
    let table = match random.pick(8) {
        0 => damaged_table(random),
        1 => rival_table(random),
        _ => valid_table(random),
    };
    let shape = match random.chance(1, 10) {
        true => Shape::any(random),
        false => Shape::small(random, 9, 4),
    };
    let shape = shape.ranged(random, ranges);
    let pair = match random.chance(1, 2) {
        true => low_pair,
        false => pair,
    };
    let records = records_of_pair(random, &table, &shape, ranges, pair);
    let list = reading_order(random);
    let list = match random.chance(1, 8) {
        true => damaged_reading_order(random, list),
        false => list,
    };
    InputWithList {
        table,
        list,
        records,
    }
}
