//! The order of faults as the archive's controller keeps it.

use chuldariin::raw::{Controller, Faults};
use chuldariin_log::ask::ask;
use chuldariin_log::meaning::meaning;
use chuldariin_log::text::calls;
use chuldariin_log::Room;

/// A controller with these places for faults 1 to 5.
fn with(places: [u8; 5]) -> Controller {
    let [diode, overcurrent, residual, welded, temperature] = places;
    Controller {
        faults: Faults {
            diode,
            overcurrent,
            residual,
            welded,
            temperature,
        },
        ..Controller::ZEROED
    }
}

#[test]
fn places_of_an_order() {
    for (places, order) in [
        ([0; 5], [0; 5]),
        ([0, 0, 1, 0, 0], [3, 0, 0, 0, 0]),
        ([0, 2, 1, 0, 0], [3, 2, 0, 0, 0]),
        ([1, 2, 5, 3, 4], [1, 2, 4, 5, 3]),
    ] {
        let state = meaning(&with(places));
        assert_eq!(state.order.map(|order| order.places()), Some(order));
        assert_eq!(state.faults, places.map(|place| place != 0));
    }
}

/// A place left out, two faults in one, and places that there are not: any of them is latched all the same.
#[test]
fn places_of_no_order() {
    for places in [
        [0, 0, 2, 0, 0],
        [1, 3, 0, 0, 0],
        [0, 0, 1, 1, 0],
        [1, 2, 2, 0, 0],
        [1, 1, 1, 1, 1],
        [0, 0, 0, 0, 6],
        [1, 255, 0, 0, 0],
        [1, 2, 3, 4, 6],
    ] {
        let state = meaning(&with(places));
        assert_eq!(state.order, None, "{places:?}");
        assert_eq!(state.faults, places.map(|place| place != 0));
    }
}

#[test]
fn the_order_that_calls_lead_to() {
    let list = "begin 0 32000 0 no\nfault 1 4\nfault 2 3\nfault 3 4\nfault 4 5\nclear 5\nfault 6 3\nbegin 7 32000 0 no";
    let mut lent = Controller::ZEROED;
    let mut room = Room::default();
    let orders = calls(list).expect("a list").into_iter().map(|call| {
        ask(&mut lent, &call, &mut room);
        meaning(&lent).order.map(|order| order.places())
    });
    let expected = [
        [0; 5],
        [4, 0, 0, 0, 0],
        [4, 3, 0, 0, 0],
        [4, 3, 0, 0, 0],
        [4, 3, 5, 0, 0],
        [0; 5],
        [3, 0, 0, 0, 0],
        [0; 5],
    ];
    assert!(orders.eq(expected.map(Some)));
}
