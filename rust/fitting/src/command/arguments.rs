//! The arguments of a command: the operands in their order, and options anywhere between them.

use crate::failure::Failure;
use crate::help::{Command, More, OPTIONS};
use crate::names::{cut, nearest};
use std::collections::BTreeMap;
use std::fs;

/// The options that name a file to be written.
const OUTPUTS: [&str; 3] = ["-o", "--nodes", "--links"];

/// The arguments of one command.
pub struct Arguments {
    command: &'static Command,
    pub operands: Vec<String>,
    /// The given options, each with its value if it takes one.
    options: BTreeMap<&'static str, String>,
}

impl Arguments {
    /// Reads the arguments behind the name of a command, by the command's form.
    pub fn read(command: &'static Command, arguments: &[String]) -> Result<Arguments, Failure> {
        let mut read = Arguments {
            command,
            operands: Vec::new(),
            options: BTreeMap::new(),
        };
        let mut waiting = arguments.iter();
        let mut options_end = false;
        while let Some(argument) = waiting.next() {
            if options_end || argument == "-" || !argument.starts_with('-') {
                read.operands.push(argument.clone());
            } else if argument == "--" {
                options_end = true;
            } else {
                read.option(argument, &mut waiting)?;
            }
        }
        read.count()?;
        let inputs: Vec<&str> = read.inputs().collect();
        if inputs.iter().filter(|input| **input == "-").count() > 1 {
            return Err(read.misused("standard input, `-`, can be read once"));
        }
        read.spare(inputs)?;
        Ok(read)
    }

    /// The value of an option, if the option is given.
    pub fn value(&self, option: &str) -> Option<&str> {
        self.options.get(option).map(String::as_str)
    }

    /// Whether an option is given.
    pub fn has(&self, option: &str) -> bool {
        self.options.contains_key(option)
    }

    /// The file that `-o` names.
    pub fn output(&self) -> Option<&str> {
        self.value("-o")
    }

    /// Checks that no file that is written is also read.
    pub fn spare<'a>(&self, inputs: impl IntoIterator<Item = &'a str>) -> Result<(), Failure> {
        let inputs: Vec<&str> = inputs.into_iter().collect();
        for option in OUTPUTS {
            let Some(output) = self.value(option) else {
                continue;
            };
            if let Some(input) = inputs.iter().find(|input| is_one_file(input, output)) {
                return Err(self.misused(&format!(
                    "`{option} {output}` would write over {input}, which is read"
                )));
            }
        }
        Ok(())
    }

    /// The files that are read.
    fn inputs(&self) -> impl Iterator<Item = &str> {
        let table = self.operands.first().map(String::as_str);
        let tables = table.into_iter().chain(self.value("--table"));
        let others = self.operands.iter().skip(1).map(String::as_str);
        let tables = tables.filter(|table| *table != "house");
        tables.chain(others).chain(self.value("--over"))
    }

    fn option<'a>(
        &mut self,
        argument: &str,
        waiting: &mut impl Iterator<Item = &'a String>,
    ) -> Result<(), Failure> {
        let Some(&option) = self.command.options.iter().find(|name| **name == argument) else {
            return Err(self.no_option(argument));
        };
        let needs = OPTIONS.iter().find(|(name, _)| *name == option);
        let value = match needs {
            Some((_, Some(what))) => match waiting.next() {
                Some(value) => value.clone(),
                None => {
                    return Err(self.misused(&format!("`{option}` needs {what} behind it")));
                }
            },
            _ => String::new(),
        };
        self.options.insert(option, value);
        Ok(())
    }

    fn no_option(&self, argument: &str) -> Failure {
        let Command { name, options, .. } = self.command;
        let near = match argument.split_once('=') {
            Some((option, _)) => options.iter().find(|name| **name == option).copied(),
            None => nearest(argument, options.iter().copied()),
        };
        let near = near.map_or(String::new(), |near| format!(": did you mean `{near}`?"));
        let argument = cut(argument);
        self.misused(&format!("`{name}` has no option `{argument}`{near}"))
    }

    fn count(&self) -> Result<(), Failure> {
        let wanted = self.command.operands;
        if self.operands.len() < wanted.len() {
            let missing = wanted[self.operands.len()..].join(" and ");
            return Err(self.misused(&format!("{missing} missing")));
        }
        let most = match self.command.more {
            More::None => wanted.len(),
            More::One => wanted.len() + 1,
            More::Any => usize::MAX,
        };
        match self.operands.get(most) {
            Some(extra) => Err(self.misused(&format!("`{}` is one argument too many", cut(extra)))),
            None => Ok(()),
        }
    }

    /// Wrong use of the command, with its form.
    pub fn misused(&self, message: &str) -> Failure {
        let Command { name, usage, .. } = self.command;
        Failure::usage(format!(
            "{message}\n  usage: {usage}\n  `fitting {name} --help` tells more"
        ))
    }
}

/// Whether two arguments name one regular file.
pub fn is_one_file(one: &str, other: &str) -> bool {
    let file = |name| fs::canonicalize(name).ok().filter(|path| path.is_file());
    match (one, other) {
        ("-", _) | (_, "-") => false,
        _ => file(one).is_some_and(|one| Some(one) == file(other)),
    }
}
