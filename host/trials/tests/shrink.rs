//! How a list is shrunk.

use chuldariin_log::text::print;
use chuldariin_log::Call;
use chuldariin_trials::shrink::shrink;

#[test]
fn only_needed_calls_are_left() {
    // Say that the two sides part at a clear, once there were two faults.
    let part = |calls: &[Call]| {
        let clear = calls.iter().position(|call| *call == Call::Clear(70))?;
        let faults = calls[..clear].iter().filter(|call| call.word() == "fault");
        (faults.count() >= 2).then_some(clear)
    };
    let mut calls: Vec<Call> = (0..90).map(Call::Tick).collect();
    calls[13] = Call::Fault(13, 3);
    calls[14] = Call::Fault(14, 4);
    calls[40] = Call::Fault(40, 5);
    calls[70] = Call::Clear(70);
    let few = shrink(calls, part);
    assert_eq!(print(&few), "fault 13 3\nfault 14 4\nclear 70\n");
}
