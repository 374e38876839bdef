//! Reports as pages of HTML: every element is closed, a page loads nothing, and its pictures stand
//! in the page.

mod tool;

use std::fs;
use std::os::unix::fs::PermissionsExt;
use std::path::Path;
use tool::{folder, output, tool};

/// A page about the clinic's programs, with a folder as the only one in which programs are
/// found.
fn page(folder: &Path, programs: &Path) -> (String, String) {
    let clinic = "examples/fitting/clinic";
    let table = format!("{clinic}/clinic.table");
    let mut command = tool(folder, &["report", &table, clinic, "-o", "page.html"]);
    command.env("PATH", programs);
    let told = output(command, b"");
    assert!(told.status.success() && told.stdout.is_empty());
    let page = fs::read_to_string(folder.join("page.html")).expect("the page is written");
    (page, String::from_utf8(told.stderr).expect("text"))
}

/// Every element that is opened is closed, the last first.
fn assert_closed(page: &str) {
    let mut open: Vec<&str> = Vec::new();
    let mut rest = page;
    while let Some(at) = rest.find('<') {
        let tag = &rest[at + 1..];
        let end = tag.find('>').expect("a tag ends");
        let (tag, after) = (&tag[..end], &tag[end + 1..]);
        let name = tag.trim_start_matches('/').split([' ', '/', '\n']).next();
        let name = name.unwrap_or_default();
        match tag.chars().next() {
            Some('/') => assert_eq!(open.pop(), Some(name), "{page}"),
            Some('!') => {}
            _ if name == "meta" || tag.ends_with('/') => {}
            _ => open.push(name),
        }
        rest = after;
    }
    assert!(open.is_empty(), "{open:?}");
}

/// Nothing of the page is elsewhere.
fn assert_whole(page: &str) {
    let page = page.replace("http://www.w3.org/2000/svg", "");
    let page = page.replace("http://www.w3.org/1999/xlink", "");
    for part in ["http", "src=", "url(", "<script", "<link", "@import"] {
        assert!(!page.contains(part), "{part}");
    }
    // Every place that the page leads to is in it.
    for target in page.split("href=\"#").skip(1) {
        let target = target.split('"').next().expect("a name");
        assert!(page.contains(&format!(" id=\"{target}\"")), "{target}");
    }
}

#[test]
fn a_page_without_pictures() {
    let folder = folder("page");
    let (page, error) = page(&folder, &folder.join("target"));
    assert_eq!(
        error,
        "fitting: Pictures are left out: they are drawn by `dot` of Graphviz, which is not \
         installed.\n"
    );
    assert!(!page.contains("<svg") && page.contains("Pictures are left out"));
    assert_closed(&page);
    assert_whole(&page);
}

#[test]
fn the_page_in_the_documents_is_as_the_tool_writes_it() {
    let folder = folder("page-stored");
    let (page, _) = page(&folder, &folder.join("target"));
    let stored = Path::new(env!("CARGO_MANIFEST_DIR")).join("../../docs/report.html");
    let stored = fs::read_to_string(stored).expect("the page is stored");
    assert_closed(&stored);
    assert_whole(&stored);
    // But for the pictures and what is said of them.
    let lines = |page: &str| -> Vec<String> {
        let mut lines = Vec::new();
        let mut is_figure = false;
        for line in page.lines() {
            is_figure |= line == "<figure>";
            let is_about =
                line.contains("Pictures are left out") || line.contains("In the pictures");
            if !is_figure && !is_about {
                lines.push(line.to_string());
            }
            is_figure &= line != "</figure>";
        }
        lines
    };
    assert_eq!(lines(&page), lines(&stored));
    assert_eq!(stored.matches("<svg role=\"img\"").count(), 5);
}

#[test]
fn a_page_with_pictures() {
    let folder = folder("page-pictures");
    // A stand-in for `dot`: what it reads is the text of its picture.
    let script = "#!/bin/sh\n\
                  echo '<?xml version=\"1.0\"?><!-- by dot -->'\n\
                  echo '<svg width=\"10pt\" xmlns=\"http://www.w3.org/2000/svg\">'\n\
                  echo '<g id=\"graph0\"><title>fitting</title>'\n\
                  while read -r line; do case \"$line\" in n0*) echo '<text>drawn</text>';; esac; done\n\
                  echo '</g>'\n\
                  echo '</svg>'\n";
    let program = folder.join("target/dot");
    fs::write(&program, script).expect("it can be written");
    fs::set_permissions(&program, fs::Permissions::from_mode(0o755)).expect("it can be run");
    let (page, error) = page(&folder, &folder.join("target"));
    assert_eq!(error, "");
    assert_closed(&page);
    assert_whole(&page);
    // The common part, and every program but the template, which says no more.
    assert_eq!(page.matches("<svg role=\"img\" aria-label=\"").count(), 5);
    assert!(page.contains("<text>drawn</text>"));
    assert!(!page.contains("<title>fitting") && !page.contains("graph0"));
}

#[test]
fn a_dot_that_fails_is_told() {
    let folder = folder("page-fails");
    let program = folder.join("target/dot");
    fs::write(&program, "#!/bin/sh\nexit 4\n").expect("it can be written");
    fs::set_permissions(&program, fs::Permissions::from_mode(0o755)).expect("it can be run");
    let table = "examples/fitting/diamond.table";
    let program = "examples/fitting/r.txt";
    let mut command = tool(&folder, &["report", table, program, "-o", "page.html"]);
    command.env("PATH", folder.join("target"));
    let told = output(command, b"");
    assert_eq!(told.status.code(), Some(2));
    let error = String::from_utf8(told.stderr).expect("text");
    assert!(
        error.starts_with("fitting: cannot draw: `dot` fails"),
        "{error}"
    );
    assert!(!folder.join("page.html").exists());
}
