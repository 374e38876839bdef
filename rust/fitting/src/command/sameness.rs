//! `same`: tells which of many programs mean the same, and which program is under which. Programs
//! mean the same when their written records have equal bytes.

use super::operations::order_of;
use super::{Part, Told, counted};
use crate::command::arguments::Arguments;
use crate::explain::listed;
use crate::failure::Failure;
use crate::input::{self, Input};
use crate::json::{self, Json};
use crate::progress::Progress;
use crate::table::Table;
use record_engine::Order;
use std::collections::BTreeMap;

pub fn same(
    table: &Table,
    arguments: &Arguments,
    progress: &mut Progress,
) -> Result<Told, Failure> {
    let over = &arguments.operands[0];
    let files = input::files(over, &arguments.operands[1..])?;
    let mut parts = Vec::new();
    let mut meanings = Meanings::default();
    for (done, file) in files.iter().enumerate() {
        progress.tell(done, files.len(), "files read");
        let read = Input::read(table, file).and_then(|i| i.written(table).map(|w| (i, w)));
        match read {
            Ok((input, written)) => {
                meanings.add(input, written);
            }
            Err(failure) => parts.push(Part::Failed(failure)),
        }
    }
    let under = meanings.directly_under(table, progress)?;
    let is_found = meanings.groups.iter().any(|group| group.len() > 1);
    let over = input::name(over);
    let refused = parts.len();
    let told = match arguments.has("--json") {
        true => meanings.json(table, over, &under, refused).lines(),
        false => meanings.text(table, over, &under, refused).into_bytes(),
    };
    parts.push(Part::Printed(told));
    if is_found {
        parts.push(Part::Found);
    }
    Ok(Box::new(parts.into_iter()))
}

/// Programs by what they mean.
#[derive(Default)]
pub struct Meanings {
    /// The groups of programs that mean the same, in the order of their first programs.
    pub groups: Vec<Vec<Input>>,
    /// The group of a written record.
    places: BTreeMap<Vec<u8>, usize>,
}

impl Meanings {
    /// Adds a program with its written record, and gives the number of its group.
    pub fn add(&mut self, input: Input, written: Vec<u8>) -> usize {
        let next = self.groups.len();
        let place = *self.places.entry(written).or_insert(next);
        match place == next {
            true => self.groups.push(vec![input]),
            false => self.groups[place].push(input),
        }
        place
    }

    /// For each two groups, by their numbers, the order of the first to the second.
    pub fn orders(
        &self,
        table: &Table,
        progress: &mut Progress,
    ) -> Result<BTreeMap<(usize, usize), Order>, Failure> {
        let count = self.groups.len();
        let all = count * count.saturating_sub(1) / 2;
        let mut orders = BTreeMap::new();
        for one in 0..count {
            for other in one + 1..count {
                progress.tell(orders.len() / 2, all, "pairs compared");
                let order = order_of(table, &self.groups[one][0], &self.groups[other][0])?;
                let (under, above) = (Order::Under, Order::Above);
                let back = match order {
                    Order::Under => above,
                    Order::Above => under,
                    order => order,
                };
                orders.insert((one, other), order);
                orders.insert((other, one), back);
            }
        }
        Ok(orders)
    }

    /// The pairs of groups of which one is under the other, with no third group between them.
    fn directly_under(
        &self,
        table: &Table,
        progress: &mut Progress,
    ) -> Result<Vec<(usize, usize)>, Failure> {
        let orders = self.orders(table, progress)?;
        let count = self.groups.len();
        let mut above = vec![Vec::new(); count];
        for (&(lower, upper), &order) in &orders {
            if order == Order::Under {
                above[lower].push(upper);
            }
        }
        let mut direct = Vec::new();
        for lower in 0..count {
            for &upper in &above[lower] {
                if !above[lower]
                    .iter()
                    .any(|&third| above[third].contains(&upper))
                {
                    direct.push((lower, upper));
                }
            }
        }
        Ok(direct)
    }

    /// How many programs there are.
    fn programs(&self) -> usize {
        self.groups.iter().map(Vec::len).sum()
    }

    fn text(&self, table: &Table, over: &str, under: &[(usize, usize)], refused: usize) -> String {
        let mut text = String::new();
        let groups: Vec<&Vec<Input>> = self.groups.iter().filter(|g| g.len() > 1).collect();
        for group in &groups {
            let names: Vec<String> = group.iter().map(|input| input.name.clone()).collect();
            text += &format!("same: {}\n", listed(&names));
        }
        for &(lower, upper) in under {
            let [lower, upper] = [lower, upper].map(|group| &self.groups[group][0].name);
            text += &format!("under: {lower} is under {upper}\n");
        }
        let [programs, meanings] = [
            counted(self.programs(), "program"),
            counted(self.groups.len(), "meaning"),
        ];
        let fingerprint = table.fingerprint();
        text += &format!("{programs} over {over} ({fingerprint}): {meanings}");
        if refused > 0 {
            text += &format!(", and {} refused", counted(refused, "file"));
        }
        text + "\n"
    }

    fn json(&self, table: &Table, over: &str, under: &[(usize, usize)], refused: usize) -> Json {
        let names = |group: &Vec<Input>| Json::list(group.iter().map(|input| &input.name[..]));
        let pair = |&(lower, upper): &(usize, usize)| {
            let [lower, upper] = [lower, upper].map(|group| &self.groups[group][0].name);
            Json::object([
                ("lower", lower.as_str().into()),
                ("upper", upper.as_str().into()),
            ])
        };
        Json::object([
            ("table", json::table(table, over)),
            ("programs", self.programs().into()),
            ("meanings", self.groups.len().into()),
            ("refused", refused.into()),
            (
                "same",
                Json::List(
                    self.groups
                        .iter()
                        .filter(|g| g.len() > 1)
                        .map(names)
                        .collect(),
                ),
            ),
            ("under", Json::List(under.iter().map(pair).collect())),
        ])
    }
}
