//! The picture's elements.

use super::reduce::Point;
use std::fmt::Write;

/// Colours and widths of the lines and letters, by class.
const STYLE: &str = "\
text{font-family:'DejaVu Sans',Verdana,Arial,sans-serif;fill:#24292f}\
.title{font-weight:bold}\
.faint{fill:#6e7781}\
.frame{fill:none;stroke:#8c959f;stroke-width:1}\
.grid{stroke:#d0d7de;stroke-width:1}\
.edge{stroke:#8c959f;stroke-width:1;stroke-dasharray:2 3}\
.high{fill:none;stroke:#0a3069;stroke-width:1.4;stroke-linecap:round}\
.low{fill:none;stroke:#6e7781;stroke-width:1;stroke-linecap:round}\
.announced{fill:none;stroke:#0969da;stroke-width:1.8}\
.limit{fill:none;stroke:#bc4c00;stroke-width:1.4;stroke-dasharray:6 3}\
.rated{fill:none;stroke:#8c959f;stroke-width:1;stroke-dasharray:1 3}\
.measured,.line1{fill:#8250df}\
.line2{fill:#1b7c83}\
.line3{fill:#9a6700}\
.largest{fill:none;stroke:#24292f;stroke-width:1}\
.dot{fill:#0a3069}\
.opened{stroke:#cf222e;stroke-width:1.2}\
.closed{stroke:#1a7f37;stroke-width:1.2}\
.begun{stroke:#24292f;stroke-width:1;stroke-dasharray:1 3}\
.red,.alarm{fill:#cf222e}\
.white{fill:#ffffff;font-weight:bold}";

/// Where a text stands beside its place.
#[derive(Clone, Copy)]
pub enum Anchor {
    Start,
    Middle,
    End,
}

/// A picture as it grows.
pub struct Svg(String);

impl Svg {
    pub fn new() -> Svg {
        Svg(String::new())
    }

    /// The whole file.
    pub fn done(self, width: f64, height: f64) -> String {
        format!(
            "<svg xmlns=\"http://www.w3.org/2000/svg\" width=\"{width}\" height=\"{height}\" viewBox=\"0 0 {width} {height}\">\n\
             <style>{STYLE}</style>\n<rect width=\"{width}\" height=\"{height}\" fill=\"#ffffff\"/>\n{}</svg>\n",
            self.0
        )
    }

    // Writing to a string does not fail.
    fn push(&mut self, element: std::fmt::Arguments) {
        let _ = self.0.write_fmt(element);
        self.0.push('\n');
    }

    /// The style of a class that few pictures have.
    pub fn style(&mut self, rule: &str) {
        self.push(format_args!("<style>{rule}</style>"));
    }

    /// What others refer to by its name.
    pub fn define(&mut self, definition: &str) {
        self.push(format_args!("{definition}"));
    }

    pub fn text(&mut self, x: f64, y: f64, size: f64, anchor: Anchor, class: &str, words: &str) {
        let anchor = match anchor {
            Anchor::Start => "start",
            Anchor::Middle => "middle",
            Anchor::End => "end",
        };
        let words = escaped(words);
        self.push(format_args!(
            "<text x=\"{x:.1}\" y=\"{y:.1}\" font-size=\"{size}\" text-anchor=\"{anchor}\" class=\"{class}\">{words}</text>"
        ));
    }

    /// A rectangle of a colour.
    pub fn fill(&mut self, x: f64, y: f64, width: f64, height: f64, colour: &str) {
        self.titled_fill(x, y, width, height, colour, "");
    }

    /// The same, that tells something where a pointer rests on it.
    pub fn titled_fill(
        &mut self,
        x: f64,
        y: f64,
        width: f64,
        height: f64,
        colour: &str,
        words: &str,
    ) {
        let words = escaped(words);
        self.push(format_args!(
            "<rect x=\"{x:.2}\" y=\"{y:.1}\" width=\"{width:.2}\" height=\"{height:.1}\" fill=\"{colour}\"><title>{words}</title></rect>"
        ));
    }

    pub fn frame(&mut self, x: f64, y: f64, width: f64, height: f64) {
        self.push(format_args!(
            "<rect x=\"{x:.1}\" y=\"{y:.1}\" width=\"{width:.1}\" height=\"{height:.1}\" class=\"frame\"/>"
        ));
    }

    pub fn line(&mut self, from: (f64, f64), to: (f64, f64), class: &str) {
        let ((x1, y1), (x2, y2)) = (from, to);
        self.push(format_args!(
            "<line x1=\"{x1:.1}\" y1=\"{y1:.1}\" x2=\"{x2:.1}\" y2=\"{y2:.1}\" class=\"{class}\"/>"
        ));
    }

    /// Upright lines at a place, from and to these heights, that tell something where a pointer rests on one.
    pub fn titled_lines(&mut self, x: f64, parts: &[(f64, f64)], class: &str, words: &str) {
        let mut path = String::new();
        for (top, bottom) in parts {
            let _ = write!(path, "M{x:.1} {top:.1}V{bottom:.1}");
        }
        let words = escaped(words);
        self.push(format_args!(
            "<path d=\"{path}\" class=\"{class}\"><title>{words}</title></path>"
        ));
    }

    /// A rectangle with round ends.
    pub fn pill(&mut self, x: f64, y: f64, half_width: f64, half_height: f64, class: &str) {
        let (left, top) = (x - half_width, y - half_height);
        let (width, height) = (2.0 * half_width, 2.0 * half_height);
        self.push(format_args!(
            "<rect x=\"{left:.1}\" y=\"{top:.1}\" width=\"{width:.1}\" height=\"{height:.1}\" rx=\"{half_height}\" class=\"{class}\"/>"
        ));
    }

    pub fn circle(&mut self, x: f64, y: f64, radius: f64, class: &str) {
        self.push(format_args!(
            "<circle cx=\"{x:.1}\" cy=\"{y:.1}\" r=\"{radius}\" class=\"{class}\"/>"
        ));
    }

    /// A line through these points; one that nothing is joined to is a dot.
    pub fn path(&mut self, points: &[Point], class: &str) {
        let mut path = String::new();
        for Point { x, y, joined } in points {
            let _ = match joined {
                true => write!(path, "L{x:.1} {y:.1}"),
                false => write!(path, "M{x:.1} {y:.1}h.1"),
            };
        }
        self.push(format_args!("<path d=\"{path}\" class=\"{class}\"/>"));
    }
}

/// Text as XML has it; what XML has no place for is left out.
fn escaped(text: &str) -> String {
    let mut safe = String::with_capacity(text.len());
    for c in text.chars() {
        match c {
            '&' => safe.push_str("&amp;"),
            '<' => safe.push_str("&lt;"),
            '>' => safe.push_str("&gt;"),
            '"' => safe.push_str("&quot;"),
            c if c.is_control() || matches!(c, '\u{fffe}' | '\u{ffff}') => {}
            c => safe.push(c),
        }
    }
    safe
}
