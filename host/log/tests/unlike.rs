//! Each part in which the two sides part is told.

use chuldariin::raw::{self, Controller};
use chuldariin_log::ask::ask;
use chuldariin_log::meaning::meaning;
use chuldariin_log::text::calls;
use chuldariin_log::unlike::{unlike, unlike_kept};
use chuldariin_log::Room;
use chuldariin_model::{Order, Reply, State};

#[test]
fn every_difference_is_told() {
    let mut lent = Controller::ZEROED;
    let list = calls("begin 5 32000 0 no").expect("a list");
    let archive = ask(&mut lent, &list[0], &mut Room::default());
    let state = meaning(&lent);
    let model = Reply::of(&state, 0);
    assert!(unlike(&archive, &model).is_empty() && unlike_kept(&state, &state).is_empty());
    let mut other = archive;
    (other.refusal, other.letter, other.digit, other.wave) = (1, b'A', 1, 100);
    (other.closed, other.fault, other.closings) = (true, 3, 1);
    other.lines.line3 = 1;
    let all = [
        "refusal",
        "letter",
        "digit",
        "wave",
        "contactor",
        "fault",
        "closings",
        "lines",
    ];
    assert_eq!(unlike(&other, &model), all);
    let mut other = state;
    (other.limit, other.stop, other.faults[2]) = (1, Some(5), true);
    other.lines[1] = 1;
    assert_eq!(
        unlike_kept(&state, &other),
        [
            "kept limit",
            "kept lines",
            "kept faults",
            "kept stop",
            "controller"
        ]
    );
}

/// Faults 3 and 4 are latched, in this order.
fn latched(order: Option<[u32; 5]>) -> State {
    State {
        faults: [false, false, true, true, false],
        order: order.map(|places| Order::of(places).expect("an order")),
        ..meaning(&Controller::ZEROED)
    }
}

#[test]
fn the_order_is_compared_unless_the_model_leaves_it_open() {
    let [one, other, open] = [Some([3, 4, 0, 0, 0]), Some([4, 3, 0, 0, 0]), None].map(latched);
    let same: [&str; 0] = [];
    for (archive, model, unlike) in [
        (&one, &one, &same[..]),
        (&other, &one, &["kept order", "controller"]),
        (&open, &one, &["kept order", "controller"]),
        (&one, &open, &same),
        (&other, &open, &same),
        (&open, &open, &same),
    ] {
        assert_eq!(unlike_kept(archive, model), unlike);
    }
}

/// A reply tells the first; where the order is open, any latched fault.
#[test]
fn the_fault_of_a_reply() {
    let (mut lent, mut room) = (Controller::ZEROED, Room::default());
    let list = calls("begin 0 32000 0 no\nfault 1 4\nfault 2 3").expect("a list");
    let replies = list.iter().map(|call| ask(&mut lent, call, &mut room));
    let archive = replies.collect::<Vec<_>>()[2];
    let told = |state: &State, fault: u8| {
        let told = raw::Reply { fault, ..archive };
        unlike(&told, &Reply::of(state, 0)).is_empty()
    };
    let kept = meaning(&lent);
    let open = State {
        order: None,
        ..kept
    };
    for (fault, first, any) in [
        (0, false, false),
        (2, false, false),
        (3, false, true),
        (4, true, true),
        (6, false, false),
    ] {
        assert_eq!((told(&kept, fault), told(&open, fault)), (first, any));
    }
}
