//! Steps 1 to 5 of an accepted call, in their literal order.
//!
//! The table has let the call pass, so the call's time is at or above every
//! stored time, and every figure reckoned with is in range: nothing overflows.

use crate::duty::{driven, DIGITAL_DUTY, LEAST_CURRENT};
use crate::order::Order;
use crate::pilot::{same_band, verdict, Band, Verdict};
use crate::state::{Event, State};

/// An over-run so old latches fault 2, ms.
pub const OVERRUN_AGE: u64 = 5_000;
/// The last sound sample may be so old with the contactor closed, ms.
pub const SOUND_AGE: u64 = 80;
/// A stop so old opens the contactor, ms.
pub const STOP_AGE: u64 = 3_000;
/// Wave commands that are not driven.
const STEADY_LOW: u32 = 0;
const STEADY_HIGH: u32 = 1_000;

/// Closing conditions of step 5, each for itself.
#[derive(Clone, Copy, Debug, Default, PartialEq, Eq)]
pub struct Conditions {
    pub open_before: bool,
    pub not_opened: bool,
    pub sample: bool,
    pub wave_driven: bool,
    pub this_proven: bool,
    pub previous_proven: bool,
    pub same_band: bool,
    pub pause_over: bool,
    /// In a plain post nothing is asked of the grant, and this is true.
    pub granted: bool,
}

impl Conditions {
    /// Do all of them hold?
    pub fn all(&self) -> bool {
        self.open_before
            && self.not_opened
            && self.sample
            && self.wave_driven
            && self.this_proven
            && self.previous_proven
            && self.same_band
            && self.pause_over
            && self.granted
    }
}

/// One accepted call on its way through the steps.
pub(crate) struct Run {
    /// What is kept, as changed so far.
    pub state: State,
    time: u64,
    /// Contactor open before the call?
    open_before: bool,
    /// This call's sample.
    sample: Option<Verdict>,
    /// The previous sample as it was before the call.
    partner: Option<Verdict>,
    /// Has this call forgotten the previous sample?
    forgot: bool,
    pub latched: [bool; 5],
    /// Has settled A set a grant above 0 to 0?
    pub grant_reset: bool,
    /// Has this call restarted a running over-run?
    pub restarted: bool,
    pub causes: [bool; 5],
    pub opened: bool,
    pub conditions: Conditions,
    pub closing: bool,
}

/// Takes an accepted call through all steps. A sample brings its levels; `duty` finds the duty for a current.
pub(crate) fn run(
    state: &State,
    time: u64,
    event: &Event,
    levels: Option<(i32, i32)>,
    duty: fn(u32) -> Result<u32, u8>,
) -> Run {
    let mut run = Run {
        state: State {
            order: state.known_order(),
            ..*state
        },
        time,
        open_before: !state.closed,
        sample: levels
            .map(|(high, low)| verdict(high, low, state.wave_driven(), state.ventilation)),
        partner: state.previous,
        forgot: false,
        latched: [false; 5],
        grant_reset: false,
        restarted: false,
        causes: [false; 5],
        opened: false,
        conditions: Conditions::default(),
        closing: false,
    };
    run.step_1_event(event);
    run.reset_grant();
    run.step_2_latches();
    run.step_3_wave(duty);
    run.step_4_opening();
    run.step_5_closing();
    run.keep();
    run
}

impl Run {
    /// Step 1: the call's own event.
    fn step_1_event(&mut self, event: &Event) {
        match *event {
            Event::Sample(_) => self.settle(),
            Event::Limit(limit) => self.state.limit = limit,
            Event::Measure(lines) => self.measure(lines),
            Event::Fault(kind) => self.latch(kind as usize),
            Event::Clear => self.clear(),
            Event::Tick => {}
            Event::Link(granted) => self.state.grant = granted,
        }
    }

    /// A sample: its time if sound, and settling with its partner.
    fn settle(&mut self) {
        if let Some(sample) = self.sample {
            if sample.sound {
                self.state.sound = Some(self.time);
            }
            if same_band(self.sample, self.partner) {
                self.state.settled = sample.band;
            }
        }
    }

    /// A measure: its lines are kept, and over-run starts, runs on or ends.
    fn measure(&mut self, lines: [u32; 3]) {
        self.state.lines = lines;
        let largest = lines[0].max(lines[1]).max(lines[2]);
        if let Some(allowed) = self.state.allowed() {
            if 10 * largest > 11 * allowed {
                self.state.overrun = self.state.overrun.or(Some(self.time));
            } else {
                self.state.overrun = None;
            }
        }
    }

    /// A settled after step 1: the grant is set to 0 (document 02, request e).
    fn reset_grant(&mut self) {
        if self.state.settled == Some(Band::A) {
            self.grant_reset = self.state.grant > 0;
            self.state.grant = 0;
        }
    }

    /// Latches a fault, 1 to 5. The order is that of these latches (document 02, request f).
    fn latch(&mut self, fault: usize) {
        self.state.faults[fault - 1] = true;
        self.latched[fault - 1] = true;
        if let Some(order) = &mut self.state.order {
            order.latch(fault as u32);
        }
    }

    /// Clear drops every fault and empties the order. An order that is not known stays
    /// so: clear undoes no alteration.
    fn clear(&mut self) {
        self.state.faults = [false; 5];
        self.state.order = self.state.order.map(|_| Order::default());
    }

    fn forget(&mut self) {
        self.state.previous = None;
        self.forgot = true;
    }

    /// Step 2: faults 1 and 2, and what a latch of any kind brings with it. Fault 1 is
    /// latched first, as the order puts it before 2.
    fn step_2_latches(&mut self) {
        if both(self.sample, self.partner, |sample| sample.diode_bad) {
            self.latch(1);
        }
        if self.age_at_least(self.state.overrun, OVERRUN_AGE) {
            self.latch(2);
        }
        if self.latched.contains(&true) {
            self.state.settled = None;
            self.forget();
        }
    }

    /// Step 3: wave command, then the ends and starts that hang on it.
    fn step_3_wave(&mut self, duty: fn(u32) -> Result<u32, u8>) {
        let before = self.state.wave;
        self.state.wave = command(&self.state, duty);
        if !self.state.wave_driven() {
            self.state.overrun = None;
        }
        if lowered(self.state.digital, before, self.state.wave) {
            self.restart();
        }
        if self.state.closed && self.state.wave == STEADY_HIGH {
            self.state.stop = self.state.stop.or(Some(self.time));
        }
        if self.state.wave_driven() {
            self.state.stop = None;
        }
    }

    /// A running over-run starts again at this call's time (document 02, request c).
    fn restart(&mut self) {
        if self.state.overrun.is_some() {
            self.state.overrun = Some(self.time);
            self.restarted = true;
        }
    }

    /// Step 4: opening.
    fn step_4_opening(&mut self) {
        if !self.state.closed {
            return;
        }
        self.causes = [
            both(self.sample, self.partner, |sample| !sample.sound),
            self.sound_too_old(),
            self.state.settled == Some(Band::D) && !self.state.ventilation,
            self.age_at_least(self.state.stop, STOP_AGE),
            self.state.any_fault(),
        ];
        if self.causes.contains(&true) {
            self.opened = true;
            self.state.closed = false;
            self.state.opening = Some(self.time);
            self.state.overrun = None;
            self.state.stop = None;
            self.forget();
        }
    }

    /// Step 5: closing.
    fn step_5_closing(&mut self) {
        let previous = self.state.previous;
        self.conditions = Conditions {
            open_before: self.open_before,
            not_opened: !self.opened,
            sample: self.sample.is_some(),
            wave_driven: self.state.wave_driven(),
            this_proven: self.sample.is_some_and(|sample| sample.proven),
            previous_proven: previous.is_some_and(|sample| sample.proven),
            same_band: same_band(self.sample, previous),
            pause_over: self.state.opening.is_none()
                || self.age_at_least(self.state.opening, self.state.pause),
            granted: !self.state.digital || granted(&self.state),
        };
        if self.conditions.all() {
            self.closing = true;
            self.state.closed = true;
            self.state.closings += 1;
        }
    }

    /// The end of the call: its time is kept, and its sample unless it forgot.
    fn keep(&mut self) {
        self.state.last = self.time;
        if self.sample.is_some() && !self.forgot {
            self.state.previous = self.sample;
        }
    }

    /// Did this start so long ago, or longer?
    fn age_at_least(&self, start: Option<u64>, age: u64) -> bool {
        match start {
            Some(start) => self.time - start >= age,
            None => false,
        }
    }

    /// Cause (ii): the last sound sample is too old, or there was none.
    fn sound_too_old(&self) -> bool {
        match self.state.sound {
            Some(sound) => self.time - sound > SOUND_AGE,
            None => true,
        }
    }
}

/// Are both samples there, and is this true of both?
fn both(this: Option<Verdict>, previous: Option<Verdict>, is: fn(&Verdict) -> bool) -> bool {
    match (this, previous) {
        (Some(this), Some(previous)) => is(&this) && is(&previous),
        _ => false,
    }
}

/// Is a driven duty lowered to another driven one? Never in a digital post: it
/// commands one driven duty, and refusal 1 bars the others.
fn lowered(digital: bool, before: u32, after: u32) -> bool {
    driven(digital, before) && driven(digital, after) && after < before
}

/// Is the grant enough to close on, and to stay closed on without a stop?
fn granted(state: &State) -> bool {
    state.grant >= LEAST_CURRENT
}

/// Wave command of step 3.
fn command(state: &State, duty: fn(u32) -> Result<u32, u8>) -> u32 {
    if state.any_fault() {
        return STEADY_LOW;
    }
    let offers = match state.settled {
        None | Some(Band::A) | Some(Band::E) => false,
        Some(Band::D) => state.ventilation,
        Some(Band::B) | Some(Band::C) => true,
    };
    if !offers {
        return STEADY_HIGH;
    }
    match duty(state.rated.min(state.limit)) {
        Ok(_) if state.digital => digital_command(state),
        Ok(duty) => duty,
        Err(_) => STEADY_HIGH, // below 6,000 mA
    }
}

/// A digital post's wave where plain rules give a duty.
fn digital_command(state: &State) -> u32 {
    if state.closed && !granted(state) {
        STEADY_HIGH
    } else {
        DIGITAL_DUTY
    }
}
