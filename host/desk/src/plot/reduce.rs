//! Fewer points, where several fall on one column of pixels.

/// A point of a line, px.
#[derive(Clone, Copy, Debug, PartialEq)]
pub struct Point {
    pub x: f64,
    pub y: f64,
    /// A line leads here from the point before.
    pub joined: bool,
}

/// Of each column its first and last point, and its least and greatest value between them.
pub fn reduce(points: impl Iterator<Item = Point>) -> Vec<Point> {
    let mut kept: Vec<Point> = Vec::new();
    let mut column: Vec<Point> = Vec::new();
    for point in points {
        if column
            .last()
            .is_some_and(|last| last.x.floor() != point.x.floor())
        {
            keep(&mut kept, &mut column);
        }
        column.push(point);
    }
    keep(&mut kept, &mut column);
    kept
}

/// Moves what counts of a column to the kept points. Gaps inside a column can't be seen.
fn keep(kept: &mut Vec<Point>, column: &mut Vec<Point>) {
    let by_value = |a: &&Point, b: &&Point| a.y.total_cmp(&b.y);
    let (least, most) = (
        column.iter().min_by(by_value),
        column.iter().max_by(by_value),
    );
    let ends = [column.first(), least, most, column.last()];
    for (place, point) in ends.into_iter().flatten().enumerate() {
        let joined = place > 0 || point.joined;
        let same = |last: &&Point| place > 0 && (last.x, last.y) == (point.x, point.y);
        if kept.last().filter(same).is_none() {
            kept.push(Point { joined, ..*point });
        }
    }
    column.clear();
}

/// A line that keeps each value until the next: two points for each change.
pub fn steps(points: impl Iterator<Item = (f64, f64)>, end: f64) -> Vec<Point> {
    let mut corners: Vec<Point> = Vec::new();
    for (x, y) in points {
        if let Some(&before) = corners.last() {
            corners.push(Point {
                x,
                joined: true,
                ..before
            });
        }
        let joined = !corners.is_empty();
        corners.push(Point { x, y, joined });
    }
    if let Some(&last) = corners.last() {
        corners.push(Point {
            x: end,
            joined: true,
            ..last
        });
    }
    reduce(corners.into_iter())
}
