//! The manual page and the completion for bash. Both are made from the tool's help and stored. With
//! `UPDATE_GOLDEN=1` in the environment they are stored again.

mod tool;

use std::path::{Path, PathBuf};
use std::process::Command;
use std::{env, fs};
use tool::{folder, output, tool};

/// What the tool tells about a subject.
fn help(folder: &Path, subject: &str) -> String {
    let told = output(tool(folder, &["help", subject]), b"");
    assert!(told.status.success(), "{subject}");
    String::from_utf8(told.stdout).expect("text")
}

/// The commands, and what each does, in the order of the help. Two may share a line.
fn commands(folder: &Path) -> Vec<(String, String)> {
    let whole = help(folder, "");
    let lines = whole.lines().filter_map(|line| line.strip_prefix("  "));
    let mut commands = Vec::new();
    for (names, whats) in lines.filter_map(|line| line.split_once("  ")) {
        let names: Vec<&str> = names.split(", ").collect();
        let whats: Vec<&str> = whats.trim().split("; ").collect();
        assert_eq!(names.len(), whats.len(), "{names:?}");
        let pairs = names.into_iter().zip(whats);
        commands.extend(pairs.map(|(name, what)| (name.to_string(), what.to_string())));
    }
    commands
}

/// How a command is used, from its help.
fn usage(help: &str) -> &str {
    let (usage, _) = help.split_once("\n\n").expect("a usage line");
    usage.strip_prefix("Usage: ").expect("a usage line")
}

/// The options that a command is used with.
fn options(usage: &str) -> Vec<&str> {
    let words = usage.split([' ', '\n', '[', ']', '|']);
    words.filter(|word| word.starts_with('-')).collect()
}

/// Compares a text with a stored file of the package, or stores it.
fn assert_stored(file: &str, text: &str) {
    let file = Path::new(env!("CARGO_MANIFEST_DIR")).join(file);
    if env::var_os("UPDATE_GOLDEN").is_some() {
        fs::write(file, text).expect("it can be stored");
    } else {
        let stored = fs::read_to_string(file).expect("it is stored");
        assert_eq!(stored, text);
    }
}

/// A text for a manual page: no line is taken for a request.
fn roff(text: &str) -> String {
    let text = text.replace('\\', "\\e").replace('-', "\\-");
    match text.starts_with(['.', '\'']) {
        true => format!("\\&{text}"),
        false => text,
    }
}

/// The help's lines for a manual page: paragraphs, and lines that begin with blanks as they
/// stand.
fn section(help: &str) -> String {
    let mut text = String::new();
    let mut stands = false;
    for line in help.trim().lines() {
        if line.is_empty() {
            text += if stands { ".fi\n" } else { "" };
            stands = false;
            text += ".PP\n";
            continue;
        }
        if line.starts_with(' ') && !stands {
            text += ".nf\n";
            stands = true;
        } else if !line.starts_with(' ') && stands {
            text += ".fi\n";
            stands = false;
        }
        text += &format!("{}\n", roff(line));
    }
    text + if stands { ".fi\n" } else { "" }
}

fn manual(folder: &Path) -> String {
    let version = output(tool(folder, &["--version"]), b"").stdout;
    let version = String::from_utf8(version).expect("text");
    let whole = help(folder, "");
    let (_, about) = whole.rsplit_once("\n\n").expect("a last paragraph");
    let (about, status) = about.split_once(" Exit status: ").expect("the status");
    let mut page = format!(
        ".\\\" Made from the tool's help: see tests/manual.rs.\n\
         .TH FITTING 1 \"\" \"{}\" \"\"\n.SH NAME\n\
         fitting \\- records as text and as pictures\n.SH SYNOPSIS\n\
         .B fitting\nCOMMAND TABLE FILE.. [OPTIONS]\n.SH DESCRIPTION\n{}\n",
        version.trim(),
        section(about).trim()
    );
    page += ".SH COMMANDS\n";
    for (name, what) in commands(folder) {
        let help = help(folder, &name);
        let (_, about) = help.split_once("\n\n").expect("a usage line");
        let usage: Vec<&str> = usage(&help).split_whitespace().collect();
        page += &format!(
            ".SS {name}: {}\n.B {}\n.PP\n{}",
            roff(&what),
            roff(&usage.join(" ")),
            section(about)
        );
    }
    for subject in ["text", "json"] {
        let help = help(folder, subject);
        let (title, help) = help.split_once("\n\n").expect("a title");
        page += &format!(".SH {}\n{}", title.to_uppercase(), section(help));
    }
    page += &format!(
        ".SH EXIT STATUS\n{}\n.SH SEE ALSO\n.BR dot (1)\n",
        section(status).trim()
    );
    page
}

#[test]
fn the_manual_page_is_the_help() {
    let folder = folder("manual");
    let manual = manual(&folder);
    assert_stored("fitting.1", &manual);
    // Every command and every option has its place.
    for (name, _) in commands(&folder) {
        assert!(manual.contains(&format!("\n.SS {name}: ")), "{name}");
        let help = help(&folder, &name);
        for option in options(usage(&help)) {
            assert!(manual.contains(&roff(option)), "{option}");
        }
    }
}

fn completion(folder: &Path) -> String {
    let commands: Vec<String> = commands(folder).into_iter().map(|(name, _)| name).collect();
    let names = commands.join(" ");
    let mut cases = String::new();
    for name in &commands {
        let help = help(folder, name);
        let options = options(usage(&help)).join(" ");
        cases += &format!("    {name}) options=\"{options}\" ;;\n");
    }
    format!(
        "# Completion of `fitting` for bash. Made from the tool's help: see tests/manual.rs.\n\
         # To use it, copy it to ~/.local/share/bash-completion/completions/fitting\n\
         _fitting() {{\n    \
         local word=${{COMP_WORDS[COMP_CWORD]}} before=${{COMP_WORDS[COMP_CWORD - 1]}} options=\n    \
         if ((COMP_CWORD == 1)); then\n        \
         mapfile -t COMPREPLY < <(compgen -W \"{names} help --help --version\" -- \"$word\")\n        \
         return\n    fi\n    \
         case ${{COMP_WORDS[1]}} in\n{cases}    \
         help)\n        \
         mapfile -t COMPREPLY < <(compgen -W \"{names} text json\" -- \"$word\")\n        \
         return\n        ;;\n    esac\n    \
         case $before in\n    \
         --features)\n        COMPREPLY=(1 2)\n        return\n        ;;\n    \
         --by)\n        COMPREPLY=()\n        return\n        ;;\n    esac\n    \
         if [[ $word == -* ]]; then\n        \
         mapfile -t COMPREPLY < <(compgen -W \"$options --help\" -- \"$word\")\n    else\n        \
         mapfile -t COMPREPLY < <(compgen -f -- \"$word\")\n        \
         compopt -o filenames 2>/dev/null\n        \
         # The table may be that of the house types.\n        \
         if ((COMP_CWORD == 2)) && [[ -n $word && house == \"$word\"* ]]; then\n            \
         COMPREPLY+=(house)\n        fi\n    fi\n}}\n\
         complete -F _fitting fitting\n"
    )
}

/// What bash offers behind these words, the last of which is not whole.
fn offered(folder: &Path, words: &[&str]) -> Vec<String> {
    let script = PathBuf::from(env!("CARGO_MANIFEST_DIR")).join("fitting.bash");
    let script = script.to_str().expect("a name in UTF-8");
    let quoted: Vec<String> = words.iter().map(|word| format!("'{word}'")).collect();
    let line = format!(
        "source '{script}'; COMP_WORDS=({}); COMP_CWORD={}; _fitting; printf '%s\\n' \
         \"${{COMPREPLY[@]}}\"",
        quoted.join(" "),
        words.len() - 1
    );
    let told = Command::new("bash")
        .current_dir(folder)
        .args(["-c", &line])
        .output()
        .expect("bash runs");
    let error = String::from_utf8_lossy(&told.stderr);
    assert!(error.is_empty(), "{error}");
    let text = String::from_utf8(told.stdout).expect("text");
    let mut offered: Vec<String> = text.lines().map(str::to_string).collect();
    offered.retain(|word| !word.is_empty());
    offered.sort();
    offered
}

#[test]
fn bash_completes_what_the_help_has() {
    let folder = folder("completion");
    assert_stored("fitting.bash", &completion(&folder));
    fs::write(folder.join("a map.record"), "").expect("written");
    fs::write(folder.join("hour"), "").expect("written");
    let offered = |words: &[&str]| offered(&folder, words);
    assert_eq!(
        offered(&["fitting", "com"]),
        ["combine", "common", "compare"]
    );
    assert_eq!(offered(&["fitting", "--v"]), ["--version"]);
    assert_eq!(offered(&["fitting", "help", "j"]), ["json"]);
    assert_eq!(offered(&["fitting", "check", "ho"]), ["hour", "house"]);
    assert_eq!(offered(&["fitting", "check", "hour", "ho"]), ["hour"]);
    assert_eq!(
        offered(&["fitting", "check", "hour", "a"]),
        ["a map.record"]
    );
    assert_eq!(
        offered(&["fitting", "draw", "t", "-"]),
        ["--by", "--help", "--kept-only", "--over", "-o"]
    );
    assert_eq!(
        offered(&["fitting", "list", "t", "--features", ""]),
        ["1", "2"]
    );
    assert_eq!(
        offered(&["fitting", "difference", "t", "--by", "a"]).len(),
        0
    );
}

#[test]
fn the_help_fits_a_screen() {
    let folder = folder("screen");
    let whole = help(&folder, "");
    assert!(whole.lines().count() <= 24, "{whole}");
    let commands: Vec<String> = commands(&folder)
        .into_iter()
        .map(|(name, _)| name)
        .collect();
    assert_eq!(commands.len(), 20);
    for subject in ["", "text", "json"]
        .into_iter()
        .chain(commands.iter().map(String::as_str))
    {
        for line in help(&folder, subject).lines() {
            // An example is as long as its files' names.
            let is_example = line.starts_with("  $ ");
            assert!(
                is_example || line.chars().count() <= 80,
                "{subject}: {line}"
            );
        }
    }
}
