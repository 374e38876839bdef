//! The texts of `--help`, for the tool and for each command, and the forms of the commands, by
//! which their arguments are read. The tests run the lines of the help that begin with `$`.

use crate::failure::Failure;
use crate::names::{cut, nearest};

/// How many operands may follow those that a command needs.
#[derive(Clone, Copy, PartialEq, Eq)]
pub enum More {
    None,
    One,
    Any,
}

/// A command's form and its help.
pub struct Command {
    pub name: &'static str,
    pub usage: &'static str,
    pub operands: &'static [&'static str],
    /// How many operands may follow these.
    pub more: More,
    pub options: &'static [&'static str],
    help: &'static str,
}

/// Every option, and what has to stand behind it, if anything.
pub const OPTIONS: [(&str, Option<&str>); 15] = [
    ("-o", Some("a file")),
    ("--by", Some("features")),
    ("--c", None),
    ("--features", Some("a number")),
    ("--fingerprint", None),
    ("--json", None),
    ("--kept-only", None),
    ("--links", Some("a file")),
    ("--nodes", Some("a file")),
    ("--over", Some("a file")),
    ("--plain", None),
    ("--quiet", None),
    ("--rust", None),
    ("--table", Some("a table")),
    ("--why", None),
];

/// Every command.
pub const COMMANDS: [Command; 20] = [
    Command {
        name: "check",
        usage: "fitting check TABLE [FILE..] [--quiet] [--json]",
        operands: &["TABLE"],
        more: More::Any,
        options: &["--quiet", "--json"],
        help: include_str!("help/check.txt"),
    },
    Command {
        name: "show",
        usage: "fitting show TABLE FILE",
        operands: &["TABLE", "FILE"],
        more: More::None,
        options: &[],
        help: include_str!("help/show.txt"),
    },
    Command {
        name: "make",
        usage: "fitting make TABLE TEXT -o FILE",
        operands: &["TABLE", "TEXT"],
        more: More::None,
        options: &["-o"],
        help: include_str!("help/make.txt"),
    },
    Command {
        name: "draw",
        usage: "fitting draw TABLE [FILE [--over G [--by FEATURES] [--kept-only]]]\n         [-o PICTURE]",
        operands: &["TABLE"],
        more: More::One,
        options: &["--over", "--by", "--kept-only", "-o"],
        help: include_str!("help/draw.txt"),
    },
    Command {
        name: "order",
        usage: "fitting order TABLE A B [--json] [-o FILE]",
        operands: &["TABLE", "A", "B"],
        more: More::None,
        options: &["--json", "-o"],
        help: include_str!("help/order.txt"),
    },
    Command {
        name: "compare",
        usage: "fitting compare TABLE A B [--json] [-o FILE]",
        operands: &["TABLE", "A", "B"],
        more: More::None,
        options: &["--json", "-o"],
        help: include_str!("help/compare.txt"),
    },
    Command {
        name: "same",
        usage: "fitting same TABLE FILE.. [--json]",
        operands: &["TABLE", "FILE"],
        more: More::Any,
        options: &["--json"],
        help: include_str!("help/same.txt"),
    },
    Command {
        name: "common",
        usage: "fitting common TABLE A B.. [--plain] [-o FILE]",
        operands: &["TABLE", "A", "B"],
        more: More::Any,
        options: &["--plain", "-o"],
        help: include_str!("help/common.txt"),
    },
    Command {
        name: "combine",
        usage: "fitting combine TABLE A B.. [--plain] [-o FILE]",
        operands: &["TABLE", "A", "B"],
        more: More::Any,
        options: &["--plain", "-o"],
        help: include_str!("help/combine.txt"),
    },
    Command {
        name: "difference",
        usage: "fitting difference TABLE G S [--why [--json]] [--by FEATURES] [-o FILE]",
        operands: &["TABLE", "G", "S"],
        more: More::None,
        options: &["--why", "--json", "--by", "-o"],
        help: include_str!("help/difference.txt"),
    },
    Command {
        name: "report",
        usage: "fitting report TABLE FILE.. [-o PAGE]",
        operands: &["TABLE", "FILE"],
        more: More::Any,
        options: &["-o"],
        help: include_str!("help/report.txt"),
    },
    Command {
        name: "list",
        usage: "fitting list TABLE --features F",
        operands: &["TABLE"],
        more: More::None,
        options: &["--features"],
        help: include_str!("help/list.txt"),
    },
    Command {
        name: "import",
        usage: "fitting import TABLE CSV.. [-o FILE]",
        operands: &["TABLE", "CSV"],
        more: More::Any,
        options: &["-o"],
        help: include_str!("help/import.txt"),
    },
    Command {
        name: "export",
        usage: "fitting export TABLE FILE [--nodes CSV] [--links CSV] [-o CSV]",
        operands: &["TABLE", "FILE"],
        more: More::None,
        options: &["--nodes", "--links", "-o"],
        help: include_str!("help/export.txt"),
    },
    Command {
        name: "pack",
        usage: "fitting pack TABLE P.. -o FILE",
        operands: &["TABLE", "P"],
        more: More::Any,
        options: &["-o"],
        help: include_str!("help/pack.txt"),
    },
    Command {
        name: "versions",
        usage: "fitting versions FILE [--table TABLE]",
        operands: &["FILE"],
        more: More::None,
        options: &["--table"],
        help: include_str!("help/versions.txt"),
    },
    Command {
        name: "unpack",
        usage: "fitting unpack FILE [VERSION..] [--table TABLE] [-o FOLDER]",
        operands: &["FILE"],
        more: More::Any,
        options: &["--table", "-o"],
        help: include_str!("help/unpack.txt"),
    },
    Command {
        name: "put",
        usage: "fitting put FILE VERSION P [--table TABLE]",
        operands: &["FILE", "VERSION", "P"],
        more: More::None,
        options: &["--table"],
        help: include_str!("help/put.txt"),
    },
    Command {
        name: "drop",
        usage: "fitting drop FILE VERSION [--table TABLE]",
        operands: &["FILE", "VERSION"],
        more: More::None,
        options: &["--table"],
        help: include_str!("help/drop.txt"),
    },
    Command {
        name: "table",
        usage: "fitting table TABLE [--c | --rust | --fingerprint] [-o FILE]",
        operands: &["TABLE"],
        more: More::None,
        options: &["--c", "--rust", "--fingerprint", "-o"],
        help: include_str!("help/table.txt"),
    },
];

/// The command of a name.
pub fn command(name: &str) -> Result<&'static Command, Failure> {
    let found = COMMANDS.iter().find(|command| command.name == name);
    found.ok_or_else(|| {
        let names: Vec<&str> = COMMANDS.iter().map(|command| command.name).collect();
        let advice = match nearest(name, names.iter().copied()) {
            Some(near) => format!("did you mean `{near}`?"),
            None => format!("commands: {}", names.join(", ")),
        };
        let name = cut(name);
        Failure::usage(format!(
            "there is no command `{name}`\n  {advice}\n  `fitting --help` tells more"
        ))
    })
}

/// The help about a command, about `text` or `json`, or about the whole tool.
pub fn about(subject: &str) -> Result<String, Failure> {
    match subject {
        "" => Ok(include_str!("help/fitting.txt").to_string()),
        "text" => Ok(include_str!("help/text.txt").to_string()),
        "json" => Ok(include_str!("help/json.txt").to_string()),
        name => {
            let command = command(name)?;
            Ok(format!("Usage: {}\n\n{}", command.usage, command.help))
        }
    }
}
