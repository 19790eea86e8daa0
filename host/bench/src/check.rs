//! Before a window is timed, all contestants must find the same levels in it.

use crate::drive::{charging, DRIVEN_TO};
use crate::window::{copies, same, sorting, without_skip, Levels};
use chuldariin::raw;
use chuldariin_model::{driven, levels, verdict, Band, State};

/// Upper ends of the bands, mV. One more has no band.
const UPPER_ENDS: [i32; 5] = [13_000, 10_000, 7_000, 4_000, 1_000];

/// Upper end of the low band, mV.
const LOW_END: i32 = -11_000;

pub fn all_agree_on(window: &[i32]) {
    let expected = same::<false, 0>(window);
    for copy in copies::<false>().into_iter().chain(copies::<true>()) {
        assert_eq!(copy(window), expected, "a copy at another place");
    }
    assert_eq!(without_skip(window), expected, "without the skip");
    assert_eq!(sorting(window), expected, "with a sort");
    assert_eq!(levels(window), expected, "the model");
    match expected {
        Ok(found) => archive_agrees(window, found),
        Err(refusal) => {
            let reply = charging().archive.sample(DRIVEN_TO, window);
            assert_eq!(reply.refusal, refusal, "the archive");
        }
    }
}

/// The archive keeps a verdict and not the levels. So the window is also moved as a whole until a
/// level lies on the end of a band, and then past it: there one mV more or less would show.
fn archive_agrees(window: &[i32], (high, low): Levels) {
    let mut moves = vec![0, LOW_END - low, LOW_END + 1 - low];
    for end in UPPER_ENDS {
        moves.extend([end - high, end + 1 - high]);
    }
    for by in moves {
        let moved: Vec<i32> = window.iter().map(|reading| reading + by).collect();
        if moved.iter().all(|r| (-15_000..=15_000).contains(r)) {
            verdict_agrees(&moved, (high + by, low + by));
        }
    }
}

fn verdict_agrees(window: &[i32], (high, low): Levels) {
    let mut pair = charging();
    let reply = pair.archive.sample(DRIVEN_TO, window);
    assert_eq!(reply.refusal, 0, "the archive");
    let kept = pair.archive.controller.previous;
    assert!(kept.kept, "the archive kept no sample");
    let expected = expected(&pair.model, high, low);
    assert_eq!(kept.verdict, expected, "the archive, {high} and {low} mV");
}

/// The verdict that levels give in a controller, as the archive writes it.
fn expected(state: &State, high: i32, low: i32) -> raw::Verdict {
    let driven = driven(state.digital, state.wave);
    let found = verdict(high, low, driven, state.ventilation);
    let band = match found.band {
        None => 0,
        Some(Band::A) => b'A',
        Some(Band::B) => b'B',
        Some(Band::C) => b'C',
        Some(Band::D) => b'D',
        Some(Band::E) => b'E',
    };
    raw::Verdict {
        band,
        sound: found.sound,
        proven: found.proven,
        diodebad: found.diode_bad,
    }
}
