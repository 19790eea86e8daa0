//! Lines folded or cut to the width of a terminal; whole where there is none.

use std::io::{self, IsTerminal, Write};

/// Narrower than this nothing is folded.
const LEAST: usize = 40;
/// A column of words is at least so wide; else it starts below its line.
const COLUMN: usize = 30;
/// So far in stands what starts below its line.
const BELOW: usize = 6;

/// The width of standard output, if that is a terminal.
pub fn width_of_stdout() -> Option<usize> {
    if !std::io::stdout().is_terminal() {
        return None;
    }
    let given = std::env::var("COLUMNS").ok();
    let given = given.and_then(|columns| columns.parse().ok());
    given.or_else(asked).filter(|width| *width >= LEAST)
}

/// What the system says of the terminal.
#[repr(C)]
#[derive(Default)]
struct Size {
    rows: u16,
    columns: u16,
    pixels: [u16; 2],
}

const STDOUT: i32 = 1;
const TIOCGWINSZ: u64 = 0x5413;

extern "C" {
    fn ioctl(file: i32, request: u64, ...) -> i32;
}

fn asked() -> Option<usize> {
    let mut size = Size::default();
    // SAFETY: the request writes a `winsize`, which is four numbers of 16 bits, and nothing else.
    let answer = unsafe { ioctl(STDOUT, TIOCGWINSZ, &mut size as *mut Size) };
    (answer == 0 && size.columns > 0).then_some(size.columns.into())
}

/// A text cut to a width.
pub fn cut(text: &str, width: Option<usize>) -> &str {
    let end = width.and_then(|width| text.char_indices().nth(width));
    end.map_or(text, |(end, _)| text[..end].trim_end())
}

/// Where the words behind a line's columns go.
#[derive(Clone, Copy, Debug, PartialEq, Eq)]
pub struct Place {
    /// The width of the terminal.
    pub width: Option<usize>,
    /// They start in the line itself, behind so many letters; else below it.
    pub indent: usize,
    pub below: bool,
}

impl Place {
    /// Behind columns of this width.
    pub fn behind(columns: usize, width: Option<usize>) -> Place {
        let below = width.is_some_and(|width| columns + COLUMN > width);
        let indent = if below { BELOW } else { columns };
        Place {
            width,
            indent,
            below,
        }
    }

    /// The words in lines that fit.
    pub fn fold<'a>(&self, words: &'a str) -> Vec<&'a str> {
        match self.width {
            Some(width) => fold(words, width.saturating_sub(self.indent)),
            None => vec![words],
        }
    }
}

/// A text in lines of a width, broken at spaces; a longer word is broken where it must be.
pub fn fold(text: &str, width: usize) -> Vec<&str> {
    let mut lines = Vec::new();
    let mut rest = text;
    while let Some((end, _)) = rest.char_indices().nth(width.max(1)) {
        let space = rest[..=end_of_letter(rest, end)]
            .rfind(' ')
            .filter(|space| *space > 0);
        let end = space.unwrap_or(end);
        lines.push(rest[..end].trim_end());
        rest = rest[end..].trim_start_matches(' ');
    }
    lines.push(rest);
    lines
}

/// The letters that a terminal shows: colours take no room.
pub fn visible(text: &str) -> usize {
    let mut shown = 0;
    let mut coloured = false;
    for c in text.chars() {
        match (coloured, c) {
            (false, '\x1b') => coloured = true,
            (true, 'm') => coloured = false,
            (false, _) => shown += 1,
            (true, _) => {}
        }
    }
    shown
}

/// Writes lines, folded to a width; what goes on below its line stands further in.
pub struct Folded<W> {
    out: W,
    width: Option<usize>,
    line: Vec<u8>,
}

impl<W: Write> Folded<W> {
    pub fn new(out: W, width: Option<usize>) -> Folded<W> {
        Folded {
            out,
            width,
            line: Vec::new(),
        }
    }

    /// The line that is there now.
    fn end(&mut self) -> io::Result<()> {
        let line = String::from_utf8_lossy(&self.line).into_owned();
        self.line.clear();
        let Some(width) = self.width.filter(|width| visible(&line) > *width) else {
            return self.out.write_all(line.as_bytes());
        };
        let indent = line.len() - line.trim_start_matches(' ').len() + 4;
        let (mut row, mut first) = (String::new(), true);
        for word in line.split(' ') {
            if !first && visible(&row) + 1 + visible(word.trim_end()) > width {
                writeln!(self.out, "{}", row.trim_end())?;
                row = " ".repeat(indent - 1);
            }
            row.push_str(if first { "" } else { " " });
            row.push_str(word);
            first = false;
        }
        self.out.write_all(row.as_bytes())
    }
}

impl<W: Write> Write for Folded<W> {
    fn write(&mut self, bytes: &[u8]) -> io::Result<usize> {
        let end = bytes.iter().position(|byte| *byte == b'\n');
        let taken = end.map_or(bytes.len(), |end| end + 1);
        self.line.extend_from_slice(&bytes[..taken]);
        if end.is_some() {
            self.end()?;
        }
        Ok(taken)
    }

    fn flush(&mut self) -> io::Result<()> {
        self.out.flush()
    }
}

/// The last byte of the letter that starts there.
fn end_of_letter(text: &str, start: usize) -> usize {
    let length = text[start..].chars().next().map_or(1, char::len_utf8);
    start + length - 1
}

#[cfg(test)]
mod tests {
    use super::{cut, fold, Folded, Place};
    use std::io::Write;

    #[test]
    fn lines_are_folded_as_they_are_written() {
        let folded = |text: &str, width| {
            let mut out = Vec::new();
            let mut lines = Folded::new(&mut out, width);
            write!(lines, "{text}").expect("memory");
            String::from_utf8(out).expect("UTF-8")
        };
        let text = "  silence   1 time without an accepted call\n\nend\n";
        assert_eq!(folded(text, None), text);
        assert_eq!(folded(text, Some(80)), text);
        let narrow = "  silence   1 time\n      without an\n      accepted call\n\nend\n";
        assert_eq!(folded(text, Some(20)), narrow);
        // Colours take no room, and a word that is too long stays whole.
        assert_eq!(
            folded("\x1b[31mred words\x1b[0m\n", Some(9)),
            "\x1b[31mred words\x1b[0m\n"
        );
        assert_eq!(
            folded("a longer-word b\n", Some(5)),
            "a\n    longer-word\n    b\n"
        );
    }

    #[test]
    fn lines_fit_and_lose_no_word() {
        let text = "two unsound samples in a row: high 7,550 mV at 2013 and 7,600 mV at 2015";
        for width in 1..90 {
            let lines = fold(text, width);
            assert!(
                lines.iter().all(|line| line.chars().count() <= width),
                "{lines:?}"
            );
            let joined: String = lines.concat().chars().filter(|c| *c != ' ').collect();
            assert_eq!(joined, text.replace(' ', ""));
        }
        assert_eq!(fold("a b", 3), ["a b"]);
        assert_eq!(fold("ab cd", 3), ["ab", "cd"]);
        assert_eq!(fold("ab cd", 2), ["ab", "cd"]);
        assert_eq!(fold("äöü ß", 3), ["äöü", "ß"]);
        assert_eq!(fold("", 3), [""]);
    }

    #[test]
    fn cuts_are_whole_letters() {
        assert_eq!(cut("äöü", Some(2)), "äö");
        assert_eq!(cut("ab  c", Some(4)), "ab");
        assert_eq!(cut("abc", Some(3)), "abc");
        assert_eq!(cut("abc", None), "abc");
    }

    #[test]
    fn words_stand_behind_their_line_or_below_it() {
        let wide = Place::behind(100, Some(140));
        assert_eq!((wide.below, wide.indent), (false, 100));
        let narrow = Place::behind(100, Some(129));
        assert_eq!((narrow.below, narrow.indent), (true, 6));
        let none = Place::behind(100, None);
        assert_eq!((none.below, none.fold("a b").len()), (false, 1));
    }
}
