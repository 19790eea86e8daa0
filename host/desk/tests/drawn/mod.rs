//! Draws a log, and finds what is drawn.

// Each test uses a part of it.
#![allow(dead_code)]

use chuldariin_desk::input::Log;
use chuldariin_desk::lists::Ask;
use chuldariin_desk::plot::plot;
use chuldariin_desk::replay::Part;

/// A part of a log as it is asked for.
pub trait Asked {
    fn part(self) -> Part;
}

impl Asked for Part {
    fn part(self) -> Part {
        self
    }
}

/// From one time to another, in a log with one list.
impl Asked for (u64, u64) {
    fn part(self) -> Part {
        (Some(Ask::Time(self.0)), Some(Ask::Time(self.1)))
    }
}

/// From one moment to another, as the options have them.
impl Asked for (&str, &str) {
    fn part(self) -> Part {
        let ask = |word| Ask::parse(word).unwrap_or_else(|wrong| panic!("{wrong}"));
        (Some(ask(self.0)), Some(ask(self.1)))
    }
}

/// The picture of a log, or of a part of it.
pub fn picture(text: &str, part: impl Asked) -> String {
    drawn(text, part).unwrap_or_else(|error| panic!("{error}"))
}

/// The same, or why there is none.
pub fn drawn(text: &str, part: impl Asked) -> Result<String, String> {
    let log = Log::of(text.as_bytes()).unwrap_or_else(|unfit| panic!("{unfit}"));
    plot(&log, "log", part.part()).map_err(|error| error.to_string())
}

/// A part of a strip: its place and width, px, its colour or pattern, and what a pointer shows.
#[derive(Debug, PartialEq)]
pub struct Rect {
    pub x: f64,
    pub width: f64,
    pub fill: String,
    pub title: String,
}

/// The parts of the strip at this height that tell something.
pub fn strip(svg: &str, y: f64) -> Vec<Rect> {
    let y = format!(" y=\"{y:.1}\"");
    let lines = svg
        .lines()
        .filter(|line| line.starts_with("<rect") && line.contains(&y));
    let value = |line: &str, name: &str| {
        let start = line.find(&format!(" {name}=\""))? + name.len() + 3;
        line[start..].split('"').next().map(str::to_string)
    };
    let rect = |line: &str| {
        let title = line.split_once("<title>")?.1.split_once('<')?.0;
        Some(Rect {
            x: value(line, "x")?.parse().ok()?,
            width: value(line, "width")?.parse().ok()?,
            fill: value(line, "fill")?,
            title: title.to_string(),
        })
    };
    let rects = lines.filter_map(rect);
    rects.filter(|rect| !rect.title.is_empty()).collect()
}

/// The texts at this height, from left to right: their places and words.
pub fn texts(svg: &str, y: f64) -> Vec<(f64, String)> {
    let y = format!(" y=\"{y:.1}\"");
    let lines = svg
        .lines()
        .filter(|line| line.starts_with("<text") && line.contains(&y));
    let text = |line: &str| {
        let x = line.split_once("x=\"")?.1.split_once('"')?.0;
        let words = line.split_once('>')?.1.split_once('<')?.0;
        Some((x.parse().ok()?, words.to_string()))
    };
    lines.filter_map(text).collect()
}

/// The words of the texts at this height.
pub fn words(svg: &str, y: f64) -> Vec<String> {
    texts(svg, y).into_iter().map(|text| text.1).collect()
}

/// The path of a class.
pub fn path<'a>(svg: &'a str, class: &str) -> &'a str {
    let end = svg
        .find(&format!("\" class=\"{class}\"/>"))
        .unwrap_or_else(|| panic!("{class}"));
    let start = svg[..end].rfind("d=\"").expect("a path") + 3;
    &svg[start..end]
}

/// The places of a path, from first to last.
pub fn places(path: &str) -> Vec<(f64, f64)> {
    let parts = path.split(['M', 'L']).skip(1);
    let place = |part: &str| {
        let part = part.trim_end_matches("h.1");
        let (x, y) = part.split_once(' ').expect("x and y");
        (x.parse().expect("a number"), y.parse().expect("a number"))
    };
    parts.map(place).collect()
}
