//! What `why` tells of a digital post.

use tool::{line, says, waits, why, CHARGE};

mod tool;

/// C2 at 40, without a grant.
const READY: &str = "begin 0 32000 3000 no digital\nlimit 0 32000\nsample 10 9000 9000\nsample 20 9000 9000\nsample 30 6000 -12000\nsample 40 6000 -12000\n";

#[test]
fn the_grant_is_a_condition() {
    for (calls, grant, wanted) in [
        (
            "",
            "no   0 mA: below 6,000",
            "a grant of 6,000 mA or more (it is 0) and one more proven sample in C",
        ),
        (
            "link 50 5999\n",
            "no   5,999 mA: below 6,000",
            "a grant of 6,000 mA or more (it is 5,999) and one more proven sample in C",
        ),
        (
            "link 50 6000\n",
            "yes  6,000 mA",
            "one more proven sample in C",
        ),
    ] {
        let answer = why(&format!("{READY}{calls}"), "50");
        let kept = grant.split_at(5).1.split(':').next().unwrap_or("");
        let heading = format!("state C2, wave 5.0 %, grant {kept}, contactor open, closings 0");
        line(&answer, &heading);
        says(&answer, "wave driven", "yes  5.0 %");
        says(&answer, "grant", grant);
        waits(&answer, wanted);
    }
    assert!(!why(&CHARGE.replace("limit 0 32000\n", ""), "40").contains("grant"));
}

#[test]
fn after_begin_and_without_a_van() {
    let answer = why("begin 0 32000 3000 no digital\n", "0");
    says(
        &answer,
        "wave driven",
        "no   +12 V: limit 0 mA is below 6,000, and no state is settled (U)",
    );
    says(&answer, "grant", "no   0 mA: below 6,000");
    waits(&answer, "a limit of 6,000 mA or more (it is 0), a settled state (it is U), a grant of 6,000 mA or more (it is 0) and two proven samples in a row in one band");
    let answer = why(&format!("{READY}begin 50 32000 3000 no digital\nlimit 50 9000\nsample 60 12000 12000\nsample 70 12000 12000\nlink 80 16000\n"), "80");
    says(
        &answer,
        "wave driven",
        "no   +12 V: state A: no van is plugged in",
    );
    says(&answer, "grant", "no   0 mA: it is 0 while A is settled");
    waits(&answer, "a van (the state is A), a grant of 6,000 mA or more (it is 0) and two proven samples in a row in one band");
}

#[test]
fn after_an_opening_for_want_of_a_grant() {
    let mut log = format!("{READY}link 50 16000\nsample 60 6000 -12000\nlink 70 0\n");
    for time in (110..3_070).step_by(80) {
        log.push_str(&format!("sample {time} 6000 6000\n"));
    }
    log.push_str("tick 3070\nsample 3080 6000 6000\nsample 3100 6000 -12000\n");
    let at_once = why(&log, "3070");
    line(
        &at_once,
        "state C1, wave +12 V, grant 0 mA, contactor open, closings 1",
    );
    says(
        &at_once,
        "wave driven",
        "no   +12 V: grant 0 mA is below 6,000",
    );
    let opened = "OPENED: the stop began 3,000 ms ago, at 70, and grant 0 mA is below 6,000 (iv); line 47, at 3070";
    for answer in [&at_once, &why(&log, "3100")] {
        line(answer, opened);
    }
    let later = why(&log, "3100");
    says(&later, "wave driven", "yes  5.0 %");
    waits(&later, "a grant of 6,000 mA or more (it is 0), one more proven sample in C and the end of the pause at 6070");
}

#[test]
fn a_closed_contactor_with_its_grant() {
    let answer = why(
        &format!("{READY}link 50 16000\nsample 60 6000 -12000\n"),
        "60",
    );
    line(
        &answer,
        "state C2, wave 5.0 %, grant 16,000 mA, contactor closed, closings 1",
    );
    let last = "CLOSED: proven in C at 40 and 60; not opened since begin; grant 16,000 mA";
    assert_eq!(answer.lines().last(), Some(last));
}

/// A van that leaves takes its grant along, and that is no reason of its own.
#[test]
fn a_van_that_leaves() {
    let log = format!("{READY}link 50 16000\nsample 60 6000 -12000\nsample 70 12000 -12000\nsample 80 12000 -12000\n");
    let answer = why(&log, "80");
    says(
        &answer,
        "wave driven",
        "no   +12 V: state A: no van is plugged in",
    );
    says(&answer, "grant", "no   0 mA: it is 0 while A is settled");
}
