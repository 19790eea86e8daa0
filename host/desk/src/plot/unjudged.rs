//! The times in which nothing was judged: hatched in the contactor's strip.

use super::overlaid::Over;
use super::scale::Scale;
use super::svg::Svg;
use super::track::{Track, Unjudged};
use super::RIGHT;
use crate::causes::silent;
use crate::turn::Silence;
use crate::words::grouped;
use chuldariin_log::record::contact_word;

/// White and dark, so that it is seen on green and on grey.
const HATCH: &str =
    "<defs><pattern id=\"unjudged\" width=\"5\" height=\"5\" patternUnits=\"userSpaceOnUse\" \
    patternTransform=\"rotate(45)\"><rect width=\"2.2\" height=\"5\" fill=\"#ffffff\"/>\
    <rect x=\"2.2\" width=\"1.2\" height=\"5\" fill=\"#24292f\"/></pattern></defs>";

/// A shorter time is drawn so wide, px: enough for the hatch to be seen.
const NARROW: f64 = 5.0;

/// Several times that can't be told apart, from one place to another, px.
struct Group {
    from: f64,
    to: f64,
    times: Vec<Unjudged>,
}

/// What lies over the strip.
pub fn parts(svg: &mut Svg, track: &Track, scale: &Scale) -> Vec<Over> {
    if !track.unjudged.is_empty() {
        svg.define(HATCH);
    }
    let groups = groups(track, scale);
    groups.iter().map(|group| over(track, group)).collect()
}

fn groups(track: &Track, scale: &Scale) -> Vec<Group> {
    let mut groups: Vec<Group> = Vec::new();
    for unjudged in &track.unjudged {
        // One at the right end is seen, too.
        let from = scale.x(unjudged.from).min(RIGHT - NARROW);
        let to = scale.x(unjudged.to).max(from + NARROW);
        match groups.last_mut().filter(|last| from < last.to) {
            Some(last) => {
                last.to = last.to.max(to);
                last.times.push(*unjudged);
            }
            None => groups.push(Group {
                from,
                to,
                times: vec![*unjudged],
            }),
        }
    }
    groups
}

fn over(track: &Track, group: &Group) -> Over {
    let label = |closed| format!("{}, not judged", contact_word(closed));
    let (title, closed) = match group.times.as_slice() {
        [one] => (words(track, one), one.closed),
        several => (longest(several), true),
    };
    Over {
        from: group.from,
        to: group.to,
        fill: "url(#unjudged)",
        title,
        labels: vec![label(closed), "not judged".to_string()],
    }
}

/// One of them.
fn words(track: &Track, unjudged: &Unjudged) -> String {
    let &Unjudged {
        from,
        to,
        closed,
        over,
        silence,
    } = unjudged;
    let by_clock = Silence {
        from,
        long: to - from,
        strayed: false,
        over,
    };
    let silence = silent(&silence.unwrap_or(by_clock));
    if over {
        return silence;
    }
    let last = track.clock.moment(from).shown(track.lists.count());
    let ends = format!(
        "{}, not judged: the last accepted call is at {last}",
        contact_word(closed)
    );
    match closed {
        true => format!("{ends}; {silence}"),
        false => ends,
    }
}

fn longest(several: &[Unjudged]) -> String {
    let long = |one: &Unjudged| {
        one.silence
            .map_or(one.to - one.from, |silence| silence.long)
    };
    let longest = several.iter().map(long).max();
    format!(
        "{} times no accepted call for more than 100 ms while closed, the longest {} ms: the 80 ms rule was not judged",
        grouped(several.len() as u64),
        grouped(longest.unwrap_or(0))
    )
}
