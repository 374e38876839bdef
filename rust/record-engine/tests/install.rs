//! Runs `scripts/install` into folders of this test. Tests which files it installs, and that the
//! README's example in C builds with the flags that pkg-config gives. If the machine has no
//! pkg-config, the test reads the file for pkg-config itself.

use record_engine::VERSION_TEXT;
use std::collections::{BTreeMap, BTreeSet};
use std::env;
use std::fs;
use std::path::{Path, PathBuf};
use std::process::{self, Command, Output};

/// A folder of this test, which is removed at its end.
struct Folder(PathBuf);

impl Folder {
    fn new(name: &str) -> Folder {
        let folder = env::temp_dir().join(format!("record_engine-{}-{name}", process::id()));
        fs::create_dir_all(&folder).expect("a new folder");
        Folder(folder)
    }

    /// The files below it, by their paths.
    fn files(&self) -> BTreeSet<String> {
        let mut files = BTreeSet::new();
        let mut folders = vec![self.0.clone()];
        while let Some(folder) = folders.pop() {
            for entry in fs::read_dir(folder).expect("a folder") {
                let path = entry.expect("an entry").path();
                if path.is_dir() {
                    folders.push(path);
                } else {
                    let below = path.strip_prefix(&self.0).expect("it is below");
                    files.insert(below.display().to_string());
                }
            }
        }
        files
    }
}

impl Drop for Folder {
    fn drop(&mut self) {
        // What stays is in the machine's folder for such files.
        let _ = fs::remove_dir_all(&self.0);
    }
}

fn repository() -> PathBuf {
    Path::new(env!("CARGO_MANIFEST_DIR")).join("../..")
}

/// Runs the script.
fn install(arguments: &[&Path], before: &Path) -> Output {
    let told = Command::new(repository().join("scripts/install"))
        .args(arguments)
        .env("DESTDIR", before)
        .env("CARGO", env!("CARGO"))
        .output();
    told.expect("the script runs")
}

/// What a command printed; stops where it failed.
fn printed(told: &Output) -> String {
    let errors = String::from_utf8_lossy(&told.stderr);
    assert!(told.status.success(), "{errors}");
    String::from_utf8_lossy(&told.stdout).into_owned()
}

/// The files that the script installs below a prefix; the manual page where there is one.
fn installed(prefix: &str) -> BTreeSet<String> {
    let mut files = vec![
        "bin/fitting",
        "include/record_engine.h",
        "lib/librecord_engine.a",
        "lib/pkgconfig/record_engine.pc",
    ];
    if repository().join("rust/fitting/fitting.1").exists() {
        files.push("share/man/man1/fitting.1");
    }
    files.iter().map(|file| format!("{prefix}{file}")).collect()
}

/// The fields of a file for pkg-config, with the values of its variables put in.
fn fields(file: &Path) -> BTreeMap<String, String> {
    let text = fs::read_to_string(file).expect("the file for pkg-config");
    let mut variables: Vec<(String, String)> = Vec::new();
    let mut fields = BTreeMap::new();
    for line in text.lines() {
        let put_in = |value: &str| {
            let put = |text: String, (name, value): &(String, String)| {
                text.replace(&format!("${{{name}}}"), value)
            };
            variables.iter().fold(value.to_string(), put)
        };
        if let Some((name, value)) = line.split_once(": ") {
            fields.insert(name.to_string(), put_in(value));
        } else if let Some((name, value)) = line.split_once('=') {
            let value = put_in(value);
            variables.push((name.to_string(), value));
        }
    }
    fields
}

#[test]
fn the_example_builds_by_what_pkg_config_tells() {
    let (prefix, program) = (Folder::new("prefix"), Folder::new("program"));
    printed(&install(&[&prefix.0], Path::new("")));
    assert_eq!(prefix.files(), installed(""));

    let fields = fields(&prefix.0.join("lib/pkgconfig/record_engine.pc"));
    assert_eq!(fields["Name"], "record_engine");
    assert_eq!(fields["Version"], VERSION_TEXT);
    let flags = format!("{} {}", fields["Cflags"], fields["Libs"]);
    let pkg_config = |arguments: &[&str]| {
        let told = Command::new("pkg-config")
            .args(arguments)
            .arg("record_engine")
            .env("PKG_CONFIG_PATH", prefix.0.join("lib/pkgconfig"))
            .output();
        told.ok().map(|told| printed(&told).trim().to_string())
    };
    let command = match pkg_config(&["--cflags", "--libs"]) {
        Some(told) => {
            assert_eq!(told, flags);
            assert_eq!(pkg_config(&["--modversion"]).as_deref(), Some(VERSION_TEXT));
            "cc example.c $(pkg-config --cflags --libs record_engine)".to_string()
        }
        None => format!("cc example.c {flags}"),
    };
    let example = repository().join("examples/difference.c");
    fs::copy(example, program.0.join("example.c")).expect("the example");
    let built = Command::new("sh")
        .args(["-c", &command])
        .current_dir(&program.0)
        .env("PKG_CONFIG_PATH", prefix.0.join("lib/pkgconfig"))
        .output();
    printed(&built.expect("sh runs"));
    let told = Command::new(program.0.join("a.out")).output();
    let stored = fs::read_to_string(repository().join("examples/difference.stdout"));
    assert_eq!(
        printed(&told.expect("it runs")),
        stored.expect("stored text")
    );

    let told = Command::new(prefix.0.join("bin/fitting"))
        .arg("--help")
        .output();
    assert!(printed(&told.expect("the tool runs")).contains("fitting"));
}

#[test]
fn a_folder_goes_before_the_prefix() {
    let before = Folder::new("before");
    printed(&install(&[Path::new("/usr/records/")], &before.0));
    assert_eq!(before.files(), installed("usr/records/"));
    let fields = fields(&before.0.join("usr/records/lib/pkgconfig/record_engine.pc"));
    assert_eq!(fields["Cflags"], "-I/usr/records/include");
    assert_eq!(fields["Libs"], "-L/usr/records/lib -lrecord_engine");
}

#[test]
fn wrong_use_is_told_and_installs_nothing() {
    let before = Folder::new("nothing");
    let [relative, spaced] = ["records", "/usr/re cords"].map(Path::new);
    let uses: [(&[&Path], &str); 4] = [
        (&[], "give one folder to install into"),
        (&[spaced, spaced], "give one folder to install into"),
        (&[relative], "records is no absolute path"),
        (&[spaced], "/usr/re cords has white space"),
    ];
    for (arguments, message) in uses {
        let told = install(arguments, &before.0);
        assert_eq!(told.status.code(), Some(2));
        let errors = String::from_utf8_lossy(&told.stderr);
        assert!(errors.contains(message), "{errors}");
    }
    assert_eq!(before.files(), BTreeSet::new());
}
