//! Made-up lists as text and back.

use chuldariin_log::text::{calls, print};
use chuldariin_log::{Call, Window};
use chuldariin_model::Begin;
use chuldariin_trials::dice::Dice;
use chuldariin_trials::windows::irregular;

/// A begin with this mark.
fn begin(digital: bool) -> Call {
    Call::Begin(Begin {
        time: 5,
        rated: 6_000,
        pause: 1_000,
        ventilation: true,
        digital,
    })
}

#[test]
fn calls_come_back_as_they_were() {
    let mut dice = Dice::new(1);
    let mut list = vec![begin(false), begin(true)];
    for time in 0..200 {
        list.push(Call::Sample(time, irregular(&mut dice).into()));
        list.push(Call::Sample(
            time,
            Window::Halves(dice.level(-15_000, 15_000), 0),
        ));
        list.push(Call::Measure(dice.roll(), dice.roll() as u32));
        let lines = [0; 3].map(|_| dice.roll() as u32);
        list.push(Call::MeasureLines(dice.roll(), lines));
        list.push(Call::Link(dice.roll(), dice.roll() as u32));
    }
    assert_eq!(calls(&print(&list)), Ok(list));
}

#[test]
fn a_begin_without_a_mark_is_plain() {
    for (mark, digital) in [("", false), (" plain", false), (" digital", true)] {
        let read = calls(&format!("begin 5 6000 1000 yes{mark}\n"));
        assert_eq!(read, Ok(vec![begin(digital)]), "{mark}");
    }
    assert_eq!(print(&[begin(false)]), "begin 5 6000 1000 yes\n");
    assert_eq!(print(&[begin(true)]), "begin 5 6000 1000 yes digital\n");
    assert!(calls("begin 5 6000 1000 yes linked\n").is_err());
}
