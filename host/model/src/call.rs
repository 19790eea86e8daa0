//! Begin, the seven other calls, and the reply.

use crate::duty::duty_for;
use crate::order::Order;
use crate::state::{Event, State};
use crate::steps::{run, Conditions};
use crate::table::{check, refusal_of_begin};
use crate::window::{levels, Evaluated};

/// What begin's pause 0 means and is stored as, ms (document 02, request a).
const USUAL_PAUSE: u64 = 10_000;

/// Arguments of begin.
#[derive(Clone, Copy, Debug, PartialEq, Eq)]
pub struct Begin {
    pub time: u64,
    pub rated: u32,
    pub pause: u64,
    pub ventilation: bool,
    /// Digital, or plain.
    pub digital: bool,
}

/// What the host is told.
#[derive(Clone, Copy, Debug, PartialEq, Eq)]
pub struct Reply {
    /// 0 if accepted.
    pub refusal: u8,
    /// ASCII; 0 where a refused begin comes alone.
    pub letter: u8,
    pub digit: u8,
    pub wave: u32,
    pub closed: bool,
    /// The latched faults.
    pub faults: [bool; 5],
    /// Which of them is told: the one latched first, 0 if none is. `None` where that
    /// is open, in an altered controller.
    pub told: Option<u32>,
    pub closings: u32,
    /// The kept line currents, line 1 first, mA.
    pub lines: [u32; 3],
}

impl Reply {
    /// The reply that a controller gives beside a refusal number.
    pub fn of(state: &State, refusal: u8) -> Reply {
        Reply {
            refusal,
            letter: state.letter(),
            digit: state.digit(),
            wave: state.wave,
            closed: state.closed,
            faults: state.faults,
            told: state.told(),
            closings: state.closings,
            lines: state.lines,
        }
    }

    /// A refusal number with no controller beside it.
    pub fn alone(refusal: u8) -> Reply {
        Reply {
            refusal,
            letter: 0,
            digit: 0,
            wave: 0,
            closed: false,
            faults: [false; 5],
            told: Some(0),
            closings: 0,
            lines: [0; 3],
        }
    }

    /// May this number be told as the fault? Where it is open, any latched one may.
    pub fn may_tell(&self, fault: u32) -> bool {
        match (self.told, fault) {
            (Some(told), _) => fault == told,
            (None, 0) => !self.faults.contains(&true),
            (None, 1..=5) => self.faults[fault as usize - 1],
            _ => false,
        }
    }
}

/// What one call did.
#[derive(Clone, Copy, Debug, PartialEq, Eq)]
pub struct Outcome {
    pub reply: Reply,
    /// Causes (i) to (v) of step 4; all false with the contactor open.
    pub causes: [bool; 5],
    pub opened: bool,
    pub closing: bool,
    /// Faults that this call latched, also those latched before.
    pub latched: [bool; 5],
    /// Has step 3 restarted a running over-run (document 02, request c)?
    pub restarted: bool,
    /// Has the rule about settled A set a grant above 0 to 0 (document 02, request e)?
    pub grant_reset: bool,
    /// Step 5's conditions; all false in a refused call.
    pub conditions: Conditions,
}

impl Outcome {
    /// A reply beside which no step was done.
    pub fn without_steps(reply: Reply) -> Outcome {
        Outcome {
            reply,
            causes: [false; 5],
            opened: false,
            closing: false,
            latched: [false; 5],
            restarted: false,
            grant_reset: false,
            conditions: Conditions::default(),
        }
    }
}

/// A fresh controller with its reply, or the refusal number alone.
pub fn begin(b: &Begin) -> Result<(State, Reply), u8> {
    let refusal = refusal_of_begin(b.time, b.rated, b.pause);
    if refusal != 0 {
        return Err(refusal);
    }
    let state = State {
        rated: b.rated,
        pause: if b.pause == 0 { USUAL_PAUSE } else { b.pause },
        ventilation: b.ventilation,
        digital: b.digital,
        limit: 0,
        grant: 0,
        lines: [0; 3],
        wave: 1_000,
        closed: false,
        settled: None,
        faults: [false; 5],
        order: Some(Order::default()),
        last: b.time,
        sound: None,
        opening: None,
        overrun: None,
        stop: None,
        previous: None,
        closings: 0,
    };
    Ok((state, Reply::of(&state, 0)))
}

impl State {
    /// One call on this controller, which may be any controller at all.
    /// A refused call hands back an equal state.
    pub fn call(&self, time: u64, event: &Event) -> (State, Outcome) {
        self.call_evaluated(levels, time, event)
    }

    /// The same, with another way to find the levels of a window: the model's own takes its time.
    pub fn call_evaluated(
        &self,
        evaluate: impl FnOnce(&[i32]) -> Evaluated,
        time: u64,
        event: &Event,
    ) -> (State, Outcome) {
        self.call_by(evaluate, duty_for, time, event)
    }

    /// The same, with another way to find the duty for a current as well.
    pub fn call_by(
        &self,
        evaluate: impl FnOnce(&[i32]) -> Evaluated,
        duty: fn(u32) -> Result<u32, u8>,
        time: u64,
        event: &Event,
    ) -> (State, Outcome) {
        match check(self, evaluate, time, event) {
            Err(refusal) => (*self, Outcome::without_steps(Reply::of(self, refusal))),
            Ok(levels) => {
                let run = run(self, time, event, levels, duty);
                let outcome = Outcome {
                    reply: Reply::of(&run.state, 0),
                    causes: run.causes,
                    opened: run.opened,
                    closing: run.closing,
                    latched: run.latched,
                    restarted: run.restarted,
                    grant_reset: run.grant_reset,
                    conditions: run.conditions,
                };
                (run.state, outcome)
            }
        }
    }
}
