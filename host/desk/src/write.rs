//! Files that are written whole or not at all.

use std::error::Error;
use std::fs::{self, File};
use std::io::{self, Write};
use std::path::{Path, PathBuf};

/// So many links lead to a file at most.
const LINKS: usize = 40;
/// So many names are tried for the file beside it.
const NAMES: u32 = 100;

/// Writes a file; the error names it. What stood there before stays until all of it is written.
pub fn whole(name: &str, text: &str) -> Result<(), Box<dyn Error>> {
    written(Path::new(name), text)
        .map_err(|error| format!("{name}: can't be written: {error}").into())
}

fn written(path: &Path, text: &str) -> io::Result<()> {
    let path = led_to(path);
    let before = fs::metadata(&path).ok();
    if before.as_ref().is_some_and(|before| !before.is_file()) {
        // A device or a pipe: there is nothing to keep.
        let mut file = File::options().write(true).open(&path)?;
        return file.write_all(text.as_bytes());
    }
    if before.is_some() {
        // What may not be written is not replaced either.
        File::options().append(true).open(&path)?;
    }
    let (mut file, beside) = beside(&path)?;
    let made = file.write_all(text.as_bytes()).and_then(|()| {
        file.sync_all()?;
        if let Some(before) = before {
            fs::set_permissions(&beside, before.permissions())?;
        }
        fs::rename(&beside, &path)
    });
    if made.is_err() {
        let _ = fs::remove_file(&beside);
    }
    made
}

/// A link stays, and what it leads to is written, also if that is not there yet.
fn led_to(path: &Path) -> PathBuf {
    let mut path = path.to_path_buf();
    for _ in 0..LINKS {
        let Ok(next) = fs::read_link(&path) else {
            break;
        };
        path = path.with_file_name("").join(next);
    }
    path
}

/// A new file in the same folder, and its name.
fn beside(path: &Path) -> io::Result<(File, PathBuf)> {
    let name = |number: u32| format!(".chuldariin-{}-{number}", std::process::id());
    let make = |number: u32| {
        let beside = path.with_file_name(name(number));
        let file = File::options().write(true).create_new(true).open(&beside);
        file.map(|file| (file, beside))
    };
    let is_taken = |made: &io::Result<_>| {
        let taken = made.as_ref().err().map(io::Error::kind);
        taken == Some(io::ErrorKind::AlreadyExists)
    };
    let mut made = (0..NAMES).map(make).skip_while(is_taken);
    let none = || io::Error::other("no name is free beside it");
    made.next().unwrap_or_else(|| Err(none()))
}
