//! What the host owes, by trials: windows that lie wrongly in time or miss the high part of 5 %, and a short of the pilot line.
//!
//! The line sends the wave that was commanded, and the host calls with what it read of the line.
//! Times of calls are in ms, as the archive has them. Times on the line are in µs.

use chuldariin::{Begin, Fault, Milliamps, Millis, Post, Refusal, Reply};
use std::ops::RangeInclusive;

/// Microseconds in a millisecond, and in a period of the wave.
const MS: u64 = 1_000;
/// The limit comes then, right after a call, and brings the wave.
const LIMIT: u64 = 200;
/// The last call before the short.
const LAST: u64 = 1_000;

/// The pilot line with a van on it.
#[derive(Clone)]
struct Line {
    /// The van's level, mV: 9,000 in B and 6,000 in C.
    high: i32,
    /// The wave, in tenths of a percent.
    wave: u32,
    /// Since when it is sent; before that the line is high.
    since: u64,
    /// From then on the line is shorted.
    short: u64,
}

impl Line {
    /// The level at a time, mV. A wave of 533 is high for 533 µs of each period.
    fn level(&self, time: u64) -> i32 {
        if time >= self.short {
            return 0;
        }
        if time < self.since || (time - self.since) % MS < u64::from(self.wave) {
            return self.high;
        }
        -12_000
    }

    /// The window of a call. Each reading is the middle of its part of the window.
    fn window(&self, windows: Windows, time: u64) -> Vec<i32> {
        let Windows { span, readings, .. } = windows;
        let start = (time - windows.late - span) * MS;
        let middles = (0..readings).map(|part| (2 * part + 1) * span * MS / (2 * readings));
        let levels = middles.map(|middle| self.level(start + middle));
        levels.collect()
    }
}

/// How a host takes its windows.
#[derive(Clone, Copy)]
struct Windows {
    /// From one call to the next, ms.
    every: u64,
    /// The length of a window, ms.
    span: u64,
    /// From the end of a window to its call, ms.
    late: u64,
    /// How many readings a window has.
    readings: u64,
}

const OVERLAPPING: Windows = Windows {
    every: 2,
    span: 20,
    late: 0,
    readings: 256,
};
const LATE: Windows = Windows {
    late: 4,
    ..OVERLAPPING
};
/// Each window begins where the one before ends.
const APART: Windows = Windows {
    every: 20,
    ..OVERLAPPING
};
/// The windows that the README advises.
const ADVISED: Windows = Windows {
    every: 5,
    span: 4,
    ..OVERLAPPING
};

/// A post, its line, and how its host calls.
#[derive(Clone)]
struct Host {
    post: Post,
    line: Line,
    windows: Windows,
}

impl Host {
    /// A van at this level, and calls up to the time of the limit: B1 or C1.
    fn plugged(high: i32, windows: Windows) -> Host {
        let begin = Begin {
            time: Millis(0),
            rated: Milliamps(80_000),
            pause: Millis(0),
            ventilation: false,
            digital: false,
        };
        let (post, _) = Post::begin(begin).expect("settings in range");
        let line = Line {
            high,
            wave: 1_000,
            since: 0,
            short: u64::MAX,
        };
        let mut host = Host {
            post,
            line,
            windows,
        };
        assert_eq!(host.run(100..=LIMIT), None);
        host
    }

    /// The limit, and the wave that it brings.
    fn limit(&mut self, amps: u32) {
        let reply = self.post.limit(Millis(LIMIT), Milliamps(1_000 * amps));
        let reply = reply.expect("a limit in range");
        assert_eq!(reply.state.digit, 2);
        self.line.wave = reply.wave;
        self.line.since = LIMIT * MS;
    }

    /// Calls between two times, both in, up to a fault.
    fn run(&mut self, times: RangeInclusive<u64>) -> Option<Fault> {
        for time in times.step_by(self.windows.every as usize) {
            let reply = self.sample(time);
            if reply.fault.is_some() {
                return reply.fault;
            }
            assert_eq!(reply.wave, self.line.wave, "at {time}");
        }
        None
    }

    fn sample(&mut self, time: u64) -> Reply {
        let readings = self.line.window(self.windows, time);
        let reply = self.post.sample(Millis(time), &readings);
        reply.expect("an allowed window")
    }

    /// A window that is refused, as it has no readings, and the tick in its place.
    fn tick(&mut self, time: u64) -> Reply {
        let refused = self.post.sample(Millis(time), &[]);
        assert_eq!(refused, Err(Refusal::Length));
        self.post.tick(Millis(time)).expect("a later time")
    }
}

/// A step to a driven wave: B1 to B2 at 9 V, C1 to C2 at 6 V.
fn step(high: i32, amps: u32, windows: Windows) -> (Host, Option<Fault>) {
    let mut host = Host::plugged(high, windows);
    host.limit(amps);
    let fault = host.run(LIMIT + windows.every..=LAST);
    (host, fault)
}

/// The available currents, of 6 to 80 A, with which a step ends in fault 1.
fn faulty(high: i32, windows: Windows) -> Vec<u32> {
    let ends_in_1 = |amps: &u32| step(high, *amps, windows).1 == Some(Fault::Diode);
    (6..=80).filter(ends_in_1).collect()
}

/// A van that charges, up to the last call before the short.
fn charging(amps: u32, windows: Windows) -> Host {
    let (host, fault) = step(6_000, amps, windows);
    assert_eq!(fault, None);
    assert!(host.post.controller().closed);
    host
}

/// Which windows are refused, so that the host ticks.
#[derive(Clone, Copy)]
enum Refused {
    /// All that end after the short.
    Partly,
    /// Only those that begin after it.
    Wholly,
}

/// From a short, so many µs after the last call, to the command that opens, in µs.
fn opens(charging: &Host, after: u64, refused: Refused) -> u64 {
    let mut host = charging.clone();
    let short = LAST * MS + after;
    host.line.short = short;
    let Windows { every, span, .. } = host.windows;
    let mut times = (LAST + every..LAST + 500).step_by(every as usize);
    let opening = times.find(|&time| {
        let ticks = match refused {
            Refused::Partly => time * MS > short,
            Refused::Wholly => (time - span) * MS >= short,
        };
        let reply = if ticks {
            host.tick(time)
        } else {
            host.sample(time)
        };
        !reply.closed
    });
    opening.expect("an opening") * MS - short
}

/// The longest such time: a short every 10 µs from one call to the next.
fn longest(charging: &Host, refused: Refused) -> u64 {
    let shorts = (10..=charging.windows.every * MS).step_by(10);
    let times = shorts.map(|after| opens(charging, after, refused));
    times.max().expect("there are shorts")
}

/// The same over several currents, with windows that are handed over if they begin before the short.
fn longest_of_all(windows: Windows) -> u64 {
    let each = [6, 10, 16, 25, 32, 63].map(|amps| {
        let longest = longest(&charging(amps, windows), Refused::Wholly);
        println!(
            "{} ms in {} readings, {amps} A: {longest} µs",
            windows.span, windows.readings
        );
        longest
    });
    each.into_iter().max().expect("there are currents")
}

/// Among them 63 A with the overlapping windows, and not 6, 16 or 32 A. The least of them depends
/// on where between two calls the wave begins.
#[test]
fn a_step_with_windows_from_before_the_wave_ends_in_fault_1() {
    let from = |amps: u32| (amps..=80).collect::<Vec<u32>>();
    for high in [9_000, 6_000] {
        assert_eq!(faulty(high, OVERLAPPING), from(53), "{high}: overlapping");
        assert_eq!(faulty(high, LATE), from(6), "{high}: late");
        assert_eq!(faulty(high, APART), [], "{high}: apart");
        assert_eq!(faulty(high, ADVISED), [], "{high}: advised");
    }
}

#[test]
fn ticks_alone_open_up_to_100_ms_after_a_short() {
    for amps in [6, 16, 32, 63] {
        let host = charging(amps, APART);
        assert_eq!(opens(&host, 500, Refused::Partly), 99_500, "{amps} A");
        assert_eq!(longest(&host, Refused::Partly), 100_000, "{amps} A");
    }
}

/// Eight readings of each level before the short make a window sound.
#[test]
fn a_sound_window_partly_after_a_short_adds_its_length() {
    let many = |windows| Windows {
        readings: 1_024,
        ..windows
    };
    assert_eq!(longest_of_all(APART), 118_780);
    assert_eq!(longest_of_all(many(APART)), 119_690);
    assert_eq!(longest_of_all(ADVISED), 88_710);
    assert_eq!(longest_of_all(many(ADVISED)), 88_860);
}

/// A van in C under 5 %, whose periods begin so many µs after a millisecond.
fn at_five_percent(since: u64) -> Line {
    Line {
        high: 6_000,
        wave: 50,
        since,
        short: u64::MAX,
    }
}

/// 1,024 readings over 20 periods.
const LONG: Windows = Windows {
    readings: 1_024,
    ..APART
};
/// A reading every 62.5 µs, in step with the wave.
const IN_STEP: Windows = Windows { span: 16, ..APART };

#[test]
fn few_readings_lie_in_the_high_part_of_five_percent() {
    let high = |windows, since| {
        let window = at_five_percent(since).window(windows, LIMIT);
        window.iter().filter(|&&level| level == 6_000).count()
    };
    let fewest = |windows| (0..MS).map(|since| high(windows, since)).min();
    assert_eq!((fewest(LONG), fewest(IN_STEP)), (Some(48), Some(0)));
}

#[test]
fn windows_that_miss_the_high_part_open() {
    let begin = Begin {
        time: Millis(0),
        rated: Milliamps(32_000),
        pause: Millis(0),
        ventilation: false,
        digital: true,
    };
    let (mut post, _) = Post::begin(begin).expect("settings in range");
    let told = [
        post.limit(Millis(0), Milliamps(32_000)),
        post.link(Millis(0), Milliamps(32_000)),
        post.sample(Millis(10), &[9_000; 256]),
        post.sample(Millis(20), &[9_000; 256]),
    ];
    assert!(told.iter().all(Result::is_ok));
    let mut closed = |windows, time| {
        let window = at_five_percent(40).window(windows, time);
        let reply = post.sample(Millis(time), &window);
        reply.expect("an allowed window").closed
    };
    let windows = [(LONG, 40), (LONG, 60), (IN_STEP, 76), (IN_STEP, 92)];
    let contactor = windows.map(|(windows, time)| closed(windows, time));
    assert_eq!(contactor, [false, true, true, false]);
}
