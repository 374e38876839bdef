//! `draw`: draws a record, alone or over a more general record, or the types of a table.

use super::operations::{explained, reading_order};
use super::{Told, text};
use crate::command::arguments::Arguments;
use crate::draw::Over;
use crate::failure::Failure;
use crate::input::Input;
use crate::table::Table;
use crate::{draw, picture};
use std::iter;

pub fn draw(table: &Table, arguments: &Arguments) -> Result<Told, Failure> {
    let dot = drawn(table, arguments)?;
    match arguments.output() {
        Some(file) if file != "-" => {
            picture::draw(&dot, file)?;
            Ok(Box::new(iter::empty()))
        }
        _ => Ok(text(dot)),
    }
}

fn drawn(table: &Table, arguments: &Arguments) -> Result<String, Failure> {
    let by = reading_order(table, arguments)?;
    let over = arguments.value("--over");
    let mut of_a_difference = ["--by", "--kept-only"].iter();
    if let (None, Some(option)) = (over, of_a_difference.find(|option| arguments.has(option))) {
        let what = format!("`{option}` is about a difference: it needs `--over G`");
        return Err(arguments.misused(&what));
    }
    let Some(file) = arguments.operands.get(1) else {
        return match over {
            None => Ok(draw::types(table)),
            Some(_) => Err(arguments.misused("`--over G` needs FILE, which is drawn")),
        };
    };
    let specific = Input::read(table, file)?;
    match over {
        None => Ok(draw::dot(table, &specific.graph(table)?)),
        Some(general) => {
            let general = Input::read(table, general)?;
            let explained = explained(table, by.as_deref(), &general, &specific)?;
            let over = Over {
                kept: &explained.kept,
                general: &general.shown,
                kept_only: arguments.has("--kept-only"),
                legend: true,
            };
            Ok(draw::dot_over(table, &explained.specific, over))
        }
    }
}
