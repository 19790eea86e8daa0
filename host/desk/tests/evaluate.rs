//! The fast ways from window to levels and from current to duty, held against the model's.

use chuldariin_desk::evaluate::{evaluate, remembered};
use chuldariin_model::{duty_for, levels};
use chuldariin_trials::dice::Dice;
use chuldariin_trials::windows::{barely, clusters, irregular, noisy, peaks, scattered};

#[test]
fn the_same_levels_and_refusals_as_the_model() {
    let mut dice = Dice::new(5);
    let mut refused = [0; 7];
    for _ in 0..4_000 {
        let readings = irregular(&mut dice);
        assert_eq!(evaluate(&readings), levels(&readings), "{readings:?}");
        refused[levels(&readings).err().unwrap_or(0) as usize] += 1;
    }
    assert!(refused[0] > 1_000 && refused[6] > 100, "{refused:?}");
    for length in [0, 1, 8, 255, 256, 257, 1_023, 1_024, 1_025, 2_000] {
        for make in [peaks, clusters, noisy, scattered, barely] {
            let mut readings = make(&mut dice, length.max(256));
            readings.truncate(length);
            assert_eq!(evaluate(&readings), levels(&readings), "length {length}");
        }
    }
}

#[test]
fn readings_out_of_range() {
    for reading in [i32::MIN, -15_001, -15_000, 15_000, 15_001, i32::MAX] {
        for place in [0, 100, 255] {
            let mut readings = vec![6_000; 256];
            readings[place] = reading;
            assert_eq!(
                evaluate(&readings),
                levels(&readings),
                "{reading} at {place}"
            );
        }
    }
}

/// Whatever was asked before.
#[test]
fn the_same_duties_as_the_model() {
    let mut dice = Dice::new(6);
    for current in (0..=80_001).step_by(7).chain([u32::MAX]) {
        let other = dice.between(0, 80_001) as u32;
        for asked in [current, current, other, current] {
            assert_eq!(remembered(asked), duty_for(asked), "{asked}");
        }
    }
}
