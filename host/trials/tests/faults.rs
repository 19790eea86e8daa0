//! Which fault came first (document 02, f), as lists of text, on both sides.

use chuldariin::raw::Controller;
use chuldariin_log::ask::ask;
use chuldariin_log::text::calls;
use chuldariin_log::Room;
use chuldariin_trials::trial::Trial;

/// Closed at 40.
const CHARGING: &str = "\
limit 0 32000
sample 10 9000 9000
sample 20 9000 9000
sample 30 6000 -12000
sample 40 6000 -12000
";

/// Runs the calls of a text, on each of which both sides must agree.
fn run(trial: &mut Trial, text: &str) {
    for call in calls(text).expect("a list of calls") {
        if trial.run(call).is_err() {
            panic!("the two sides differ\n{}", trial.report("faults"));
        }
    }
}

/// A post with its contactor closed.
fn charging(begin: &str) -> Trial {
    let mut trial = Trial::from(Controller::ZEROED);
    run(&mut trial, &format!("{begin}{CHARGING}"));
    assert!(trial.state().closed);
    trial
}

/// The same with an over-run from 40 on, which is 5,000 old at 5,040.
fn over_running(begin: &str) -> Trial {
    let mut trial = charging(begin);
    run(&mut trial, "measure 40 35179\n");
    for time in (50..=5_030).step_by(10) {
        run(&mut trial, &format!("sample {time} 6000 -12000\n"));
    }
    assert_eq!(trial.state().overrun, Some(40));
    trial
}

/// A call, and the fault that it tells.
type Row = (&'static str, u8);

/// In a plain post and in a digital one each call tells its fault; at last this order is kept.
fn tells(post: fn(&str) -> Trial, rows: &[Row], order: [u32; 5]) {
    let digital = "begin 0 32000 0 no digital\nlink 0 20000\n";
    for begin in ["begin 0 32000 0 no\n", digital] {
        let mut trial = post(begin);
        rows.iter().for_each(|row| tell(&mut trial, row));
        let kept = trial.state().order.map(|order| order.places());
        assert_eq!(kept, Some(order), "{begin}{rows:?}");
    }
}

/// The archive's own reply, on a copy, before both sides are compared.
fn tell(trial: &mut Trial, (text, told): &Row) {
    for call in calls(text).expect("a call") {
        let reply = ask(&mut trial.lent(), &call, &mut Room::default());
        assert_eq!(reply.fault, *told, "{call}");
    }
    run(trial, text);
}

#[test]
fn a_residual_trip_with_a_welded_contact_behind_it() {
    let rows = [("fault 50 3", 3), ("fault 60 4", 3), ("tick 70", 3)];
    tells(charging, &rows, [3, 4, 0, 0, 0]);
    let rows = [("fault 50 4", 4), ("fault 60 3", 4), ("tick 70", 4)];
    tells(charging, &rows, [4, 3, 0, 0, 0]);
    // At one time.
    let rows = [("fault 50 5", 5), ("fault 50 3", 5), ("fault 50 4", 5)];
    tells(charging, &rows, [5, 3, 4, 0, 0]);
}

#[test]
fn told_again_a_fault_keeps_its_place() {
    let rows = [("fault 50 4", 4), ("fault 60 3", 4), ("fault 70 4", 4)];
    tells(charging, &rows, [4, 3, 0, 0, 0]);
    let rows = [
        ("fault 50 5", 5),
        ("fault 60 4", 5),
        ("fault 70 3", 5),
        ("fault 80 4", 5),
        ("fault 90 5", 5),
    ];
    tells(charging, &rows, [5, 4, 3, 0, 0]);
}

#[test]
fn where_one_call_latches_1_and_2_it_is_1() {
    let rows = [("sample 5035 6000 0", 0), ("sample 5040 6000 0", 1)];
    tells(over_running, &rows, [1, 2, 0, 0, 0]);
    let behind = [rows[0], rows[1], ("fault 5050 3", 1)];
    tells(over_running, &behind, [1, 2, 3, 0, 0]);
    // 1 alone, as the over-run is 4,999 old and ends with the wave.
    let rows = [("sample 5035 6000 0", 0), ("sample 5039 6000 0", 1)];
    let early = [rows[0], rows[1], ("tick 5040", 1)];
    tells(over_running, &early, [1, 0, 0, 0, 0]);
}

#[test]
fn a_fault_calls_own_comes_before_2() {
    let rows = [("fault 5040 3", 3), ("fault 5050 4", 3)];
    tells(over_running, &rows, [3, 2, 4, 0, 0]);
    tells(over_running, &[("fault 5040 4", 4)], [4, 2, 0, 0, 0]);
    tells(over_running, &[("fault 5040 5", 5)], [5, 2, 0, 0, 0]);
    // 2 came with an earlier call.
    let rows = [("tick 5040", 2), ("fault 5040 3", 2)];
    tells(over_running, &rows, [2, 3, 0, 0, 0]);
    // 2 does not come.
    let rows = [("fault 5039 3", 3), ("tick 5040", 3)];
    tells(over_running, &rows, [3, 0, 0, 0, 0]);
}

#[test]
fn a_clear_in_the_call_that_latches_2() {
    tells(over_running, &[("clear 5040", 2)], [2, 0, 0, 0, 0]);
    let rows = [("clear 5040", 2), ("fault 5050 5", 2), ("fault 5060 3", 2)];
    tells(over_running, &rows, [2, 5, 3, 0, 0]);
}

#[test]
fn a_clear_empties_the_order() {
    let rows = [
        ("fault 50 3", 3),
        ("fault 60 4", 3),
        ("clear 70", 0),
        ("fault 80 4", 4),
        ("fault 90 3", 4),
    ];
    tells(charging, &rows[..3], [0; 5]);
    tells(charging, &rows, [4, 3, 0, 0, 0]);
    let rows = [("tick 5040", 2), ("clear 5050", 0), ("fault 5060 5", 5)];
    tells(over_running, &rows, [5, 0, 0, 0, 0]);
}

/// Beside 2, 3, 7, 8 and 13 the first is told; a refused begin comes alone.
#[test]
fn a_refused_call_changes_no_order() {
    let rows = [
        ("fault 50 4", 4),
        ("fault 60 3", 4),
        ("fault 59 5", 4),
        ("clear 59", 4),
        ("fault 1000000000001 5", 4),
        ("limit 60 80001", 4),
        ("measure 60 200001", 4),
        ("fault 60 2", 4),
        ("begin 0 5999 0 no", 0),
        ("tick 60", 4),
    ];
    tells(charging, &rows, [4, 3, 0, 0, 0]);
    let begun = [rows[0], ("begin 0 32000 0 no", 0), ("fault 0 3", 3)];
    tells(charging, &begun, [3, 0, 0, 0, 0]);
}
