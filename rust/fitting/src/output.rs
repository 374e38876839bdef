//! Writes a file. The file gets its name only when it is complete, so after a failure the old file
//! is still there.

use crate::failure::Failure;
use std::fs::{self, OpenOptions};
use std::io::{self, Write};
use std::path::{Path, PathBuf};
use std::process;

/// The check of the bytes that were written, before the file gets its name.
type Check<'a> = &'a dyn Fn(&[u8]) -> bool;

/// Writes a file.
pub fn write(file: &str, bytes: &[u8]) -> Result<(), Failure> {
    written(file, bytes, None)
}

/// Writes a file, and reads and checks it before it gets its name.
pub fn write_checked(file: &str, bytes: &[u8], check: Check) -> Result<(), Failure> {
    written(file, bytes, Some(check))
}

fn written(file: &str, bytes: &[u8], check: Option<Check>) -> Result<(), Failure> {
    put(Path::new(file), bytes, check)
        .map_err(|error| Failure::usage(format!("cannot write {file}: {error}")))
}

/// The error of a check that fails.
fn unlike() -> io::Error {
    io::Error::other("what was written does not read as what was meant")
}

fn put(file: &Path, bytes: &[u8], check: Option<Check>) -> io::Result<()> {
    if check.is_some_and(|check| !check(bytes)) {
        return Err(unlike());
    }
    // What is there already, and its own name where it is a link.
    let old = match fs::symlink_metadata(file) {
        Err(_) => None,
        Ok(_) => {
            let named = fs::canonicalize(file);
            Some(named.and_then(|named| fs::metadata(&named).map(|old| (named, old))))
        }
    };
    match old {
        None => replace(file, None, bytes, check),
        Some(Ok((named, old))) if old.is_file() => {
            replace(&named, Some(old.permissions()), bytes, check)
        }
        // A device, a pipe or a link that leads nowhere: no other file can take its place.
        Some(_) => fs::write(file, bytes),
    }
}

/// Writes a new file in the same folder, then puts it in place of the old one.
fn replace(
    file: &Path,
    permissions: Option<fs::Permissions>,
    bytes: &[u8],
    check: Option<Check>,
) -> io::Result<()> {
    let beside = beside(file).ok_or(io::ErrorKind::IsADirectory)?;
    let mut new = OpenOptions::new()
        .write(true)
        .create_new(true)
        .open(&beside)?;
    let written = match permissions {
        Some(permissions) => new.set_permissions(permissions),
        None => Ok(()),
    }
    .and_then(|()| new.write_all(bytes))
    .and_then(|()| new.sync_all())
    .and_then(|()| match check {
        Some(check) if !check(&fs::read(&beside)?) => Err(unlike()),
        _ => Ok(()),
    })
    .and_then(|()| fs::rename(&beside, file));
    if written.is_err() {
        // What is left of it is of no use, and why it failed is told.
        let _ = fs::remove_file(&beside);
    }
    written
}

/// A name in the same folder that no file has.
fn beside(file: &Path) -> Option<PathBuf> {
    let name = file.file_name()?.to_str()?;
    Some(file.with_file_name(format!(".{name}.{}", process::id())))
}
