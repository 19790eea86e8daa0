//! A picture is written whole or not at all.

use std::fs::{self, Permissions};
use std::os::unix::fs::{symlink, PermissionsExt};
use std::path::{Path, PathBuf};
use tool::{file, name, run, text, CHARGE};

mod tool;

/// Draws a log into this file; the exit status, and what is said.
fn plot(out: &Path) -> (Option<i32>, String) {
    let log = file("a.log", CHARGE.as_bytes());
    let output = run(&["plot", name(&log), "-o", name(out)], b"");
    (output.status.code(), text(&output.stderr))
}

/// The names in a file's folder, sorted.
fn names(path: &Path) -> Vec<String> {
    let folder = fs::read_dir(path.parent().expect("a folder")).expect("a folder");
    let name = |entry: std::io::Result<fs::DirEntry>| entry.map(|entry| entry.file_name());
    let names = folder.map(|entry| name(entry).expect("a name").to_string_lossy().into_owned());
    let mut names: Vec<String> = names.collect();
    names.sort();
    names
}

fn is_picture(path: &Path) -> bool {
    fs::read_to_string(path).is_ok_and(|svg| svg.starts_with("<svg") && svg.ends_with("</svg>\n"))
}

#[test]
fn a_picture_takes_the_place_of_another() {
    let out = file("a.svg", b"old");
    fs::set_permissions(&out, Permissions::from_mode(0o640)).expect("a mode");
    assert_eq!(plot(&out), (Some(0), String::new()));
    assert!(is_picture(&out));
    assert_eq!(names(&out), ["a.svg"], "nothing is left beside it");
    let mode = fs::metadata(&out).expect("a file").permissions().mode();
    assert_eq!(mode & 0o777, 0o640);
}

/// No disk is full here, but a name that stands for a folder can't be taken.
#[test]
fn what_can_not_be_written_leaves_what_was_there() {
    let out = file("kept", b"old").with_file_name("b.svg");
    fs::create_dir(&out).expect("a folder");
    let (status, said) = plot(&out);
    assert_eq!(status, Some(1), "{said}");
    assert!(said.contains("b.svg: can't be written: "), "{said}");
    assert_eq!(names(&out), ["b.svg", "kept"]);
    let nowhere = out.join("nowhere/c.svg");
    assert_eq!(plot(&nowhere).0, Some(1));
}

/// A link, which is gone at the end of its test: `rt` works in no repository that has links.
struct Link(PathBuf);

impl Link {
    fn new(to: &str, path: PathBuf) -> Link {
        symlink(to, &path).expect("a link");
        Link(path)
    }

    fn is_there(&self) -> bool {
        fs::symlink_metadata(&self.0).is_ok_and(|about| about.is_symlink())
    }
}

impl Drop for Link {
    fn drop(&mut self) {
        fs::remove_file(&self.0).ok();
    }
}

#[test]
fn a_link_stays_a_link() {
    let target = file("target.svg", b"old");
    let link = Link::new("target.svg", target.with_file_name("link.svg"));
    assert_eq!(plot(&link.0).0, Some(0));
    assert!(is_picture(&target) && link.is_there());
    // Also one that leads to nothing yet.
    let link = Link::new("new.svg", target.with_file_name("other.svg"));
    assert_eq!(plot(&link.0).0, Some(0));
    assert!(is_picture(&target.with_file_name("new.svg")));
    assert!(link.is_there());
}

#[test]
fn a_device_is_written_as_it_is() {
    let out = Link::new("/dev/full", file("x", b"").with_file_name("full.svg"));
    let (status, said) = plot(&out.0);
    assert_eq!(status, Some(1), "{said}");
    assert!(said.contains("No space left"), "{said}");
    assert!(fs::metadata("/dev/full").is_ok_and(|about| !about.is_file()));
}

#[test]
fn another_ending_is_refused() {
    for out in ["a.png", "a.svg.gz", "a", "svg", "/dev/null"] {
        let output = run(&["plot", "nowhere.log", "-o", out], b"");
        let said = text(&output.stderr);
        assert_eq!(output.status.code(), Some(2));
        assert!(
            said.starts_with(&format!("chuldariin: -o {out}: a picture is written as SVG; expected a name that ends in .svg, or - for standard output\n")),
            "{said}"
        );
    }
    let out = file("x", b"").with_file_name("A.SVG");
    assert_eq!(plot(&out).0, Some(0));
}

/// The title is the file's name, and not where it lies.
#[test]
fn the_title_is_the_name() {
    let log = file("bay 7.log", CHARGE.as_bytes());
    let svg = text(&run(&["plot", name(&log), "-o", "-"], b"").stdout);
    assert!(svg.contains("class=\"title\">bay 7.log</text>"), "{svg}");
    let svg = text(&run(&["plot", "-", "-o", "-"], CHARGE.as_bytes()).stdout);
    assert!(
        svg.contains("class=\"title\">standard input</text>"),
        "{svg}"
    );
}
