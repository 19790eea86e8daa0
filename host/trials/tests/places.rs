//! Controllers lent with any places of their faults: those of an order, which the replies keep to, and others,
//! with which any latched fault may be told.

use chuldariin::raw;
use chuldariin::raw::Controller;
use chuldariin_log::ask::ask;
use chuldariin_log::text::calls;
use chuldariin_log::{Call, Room, Window};
use chuldariin_trials::dice::Dice;
use chuldariin_trials::edges::LARGEST;
use chuldariin_trials::tally::Tally;
use chuldariin_trials::trial::Trial;
use chuldariin_trials::wild::{any_places, faults, verdict};

const CHARGING: &str = "\
limit 10000 32000
sample 10010 9000 9000
sample 10020 9000 9000
sample 10030 6000 -12000
sample 10040 6000 -12000
";

/// Orders of none to all five faults: 1 + 5 + 20 + 60 + 120 + 120.
const ORDERS: usize = 326;

/// A plain post and a digital one, closed; then the same as fault 2 is due, and fault 1 with the next sample.
fn bases() -> Vec<raw::Controller> {
    let begins = [
        "begin 10000 32000 0 no\n",
        "begin 10000 32000 0 no digital\nlink 10000 20000\n",
    ];
    let closed = begins.map(|begin| lent_after(&format!("{begin}{CHARGING}")));
    let due = closed.map(|mut lent| {
        lent.overrun = raw::Moment {
            set: true,
            time: lent.last - 5_000,
        };
        lent.previous.verdict = verdict(4, b'C');
        lent
    });
    [closed, due].concat()
}

fn lent_after(text: &str) -> raw::Controller {
    let mut trial = Trial::from(Controller::ZEROED);
    for call in calls(text).expect("a list of calls") {
        check(&mut trial, call);
    }
    assert!(trial.lent().closed);
    trial.lent()
}

/// Runs a call: the archive tells some latched fault, 0 if there is none, and both sides agree.
fn check(trial: &mut Trial, call: Call) {
    let mut lent = trial.lent();
    let reply = ask(&mut lent, &call, &mut Room::default());
    let places = lent.faults.each();
    let latched = match reply.fault {
        0 => places == [0; 5],
        fault => places[usize::from(fault) - 1] != 0,
    };
    assert!(latched, "{call} tells {} at {places:?}", reply.fault);
    if trial.run(call).is_err() {
        panic!("the two sides differ\n{}", trial.report("places"));
    }
}

/// Each of these calls for itself on this controller.
fn each_for_itself(lent: raw::Controller, tally: &mut Tally) {
    let time = lent.last;
    for call in [
        Call::Tick(time),
        Call::Clear(time),
        Call::Fault(time, 3),
        Call::Fault(time, 4),
        Call::Fault(time, 5),
        Call::Sample(time, Window::Halves(6_000, 0)),
        // Refused.
        Call::Fault(time, 6),
        Call::Clear(time - 1),
        Call::Clear(LARGEST + 1),
    ] {
        let mut trial = Trial::from(lent);
        check(&mut trial, call);
        tally.add(&trial.tally);
    }
}

/// Faults, one of them told again; a clear, and the order afresh, which is known whatever the places were.
fn one_after_another(lent: raw::Controller, tally: &mut Tally) {
    let mut trial = Trial::from(lent);
    let time = lent.last;
    for call in [
        Call::Fault(time, 4),
        Call::Fault(time, 3),
        Call::Fault(time, 4),
        Call::Clear(time),
        Call::Fault(time, 5),
        Call::Fault(time, 3),
        Call::Fault(time, 5),
    ] {
        check(&mut trial, call);
    }
    assert_eq!(trial.state().told(), Some(5));
    tally.add(&trial.tally);
}

/// Lends each base with the faults at these places. Are they those of an order?
fn lend(places: [u8; 5], bases: &[raw::Controller], tally: &mut Tally) -> bool {
    let at = |base: &raw::Controller| raw::Controller {
        faults: faults(places),
        ..*base
    };
    for lent in bases.iter().map(at) {
        each_for_itself(lent, tally);
        one_after_another(lent, tally);
        beside_1(lent);
    }
    Trial::from(at(&bases[0])).state().told().is_some()
}

/// With a wave out of range: refused by 1, beside which the fault is told as beside the others.
fn beside_1(lent: raw::Controller) {
    let mut trial = Trial::from(raw::Controller { wave: 1, ..lent });
    check(&mut trial, Call::Tick(lent.last));
    assert_eq!(trial.tally.of("refusal", "1"), 1);
}

/// Every combination of the places 0 to 5. None of them is refused by 1.
#[test]
fn every_combination_of_places() {
    let (bases, mut tally) = (bases(), Tally::default());
    let places = |number: u16| [1, 6, 36, 216, 1_296].map(|power| (number / power % 6) as u8);
    let orders = (0..7_776).filter(|&number| lend(places(number), &bases, &mut tally));
    assert_eq!(orders.count(), ORDERS);
    println!("{}", tally.table());
    assert_eq!(tally.of("refusal", "1"), 0);
}

/// Numbers of any size as places, half of them rolled byte by byte.
#[test]
fn any_bytes_as_places() {
    let (bases, mut tally) = (bases(), Tally::default());
    let mut dice = Dice::new(1);
    for _ in 0..1_000 {
        let rolled = [0; 5].map(|_| dice.roll() as u8);
        lend(rolled, &bases, &mut tally);
        lend(any_places(&mut dice), &bases, &mut tally);
    }
    assert_eq!(tally.of("refusal", "1"), 0);
}
