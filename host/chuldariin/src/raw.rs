//! The archive as C sees it: the structs and functions of `include/chuldariin.h`.
//!
//! The functions are `unsafe` because Rust cannot see what C may do with a pointer. What they ask is
//! what a `&mut Controller` and a `&[i32]` give: [`crate::Post`] calls them with nothing else.

/// What the host set at begin.
#[repr(C)]
#[derive(Clone, Copy, Debug, PartialEq, Eq)]
pub struct Settings {
    /// Least time between an opening and the next closing, ms.
    pub pause: u64,
    /// Rated current of the post, mA.
    pub rated: u32,
    /// Whether the post has ventilation.
    pub ventilation: bool,
    /// The mark: whether the post is digital.
    pub digital: bool,
}

/// A time that may be empty.
#[repr(C)]
#[derive(Clone, Copy, Debug, PartialEq, Eq)]
pub struct Moment {
    /// Whether there is one.
    pub set: bool,
    /// The time, ms; of no meaning unless `set`.
    pub time: u64,
}

/// The place of each fault in the order of latching: 1 for the one that was latched first, 2 for the next, 0 for
/// one that is not latched.
#[repr(C)]
#[derive(Clone, Copy, Debug, PartialEq, Eq)]
pub struct Faults {
    /// 1: no diode.
    pub diode: u8,
    /// 2: over-current.
    pub overcurrent: u8,
    /// 3: residual current.
    pub residual: u8,
    /// 4: welded contact.
    pub welded: u8,
    /// 5: over-temperature.
    pub temperature: u8,
}

impl Faults {
    /// The places of faults 1 to 5.
    pub fn each(self) -> [u8; 5] {
        [
            self.diode,
            self.overcurrent,
            self.residual,
            self.welded,
            self.temperature,
        ]
    }
}

/// What a sample was found to be.
#[repr(C)]
#[derive(Clone, Copy, Debug, PartialEq, Eq)]
pub struct Verdict {
    /// The band of its high level, `b'A'` to `b'E'`; 0 for none.
    pub band: u8,
    pub sound: bool,
    pub proven: bool,
    pub diodebad: bool,
}

/// The previous sample.
#[repr(C)]
#[derive(Clone, Copy, Debug, PartialEq, Eq)]
pub struct Previous {
    /// Whether there is one; the verdict is of no meaning otherwise.
    pub kept: bool,
    pub verdict: Verdict,
}

/// The current on each line, mA.
#[repr(C)]
#[derive(Clone, Copy, Debug, PartialEq, Eq)]
pub struct Lines {
    pub line1: u32,
    pub line2: u32,
    pub line3: u32,
}

impl Lines {
    /// Line 1 first.
    pub fn each(self) -> [u32; 3] {
        [self.line1, self.line2, self.line3]
    }
}

/// What the host keeps, and lends to each call.
#[repr(C)]
#[derive(Clone, Copy, Debug, PartialEq, Eq)]
pub struct Controller {
    pub settings: Settings,
    /// The depot's limit, mA.
    pub limit: u32,
    /// The current granted by link, mA.
    pub grant: u32,
    /// The wave command, in tenths of a percent.
    pub wave: u32,
    /// The contactor command.
    pub closed: bool,
    /// The settled state, `b'A'` to `b'E'`; any other number is U.
    pub settled: u8,
    pub faults: Faults,
    pub previous: Previous,
    /// The time of the last accepted call, or of begin, ms.
    pub last: u64,
    /// The last sound sample.
    pub sound: Moment,
    /// The last opening.
    pub opening: Moment,
    /// The start of the over-run, or its last restart.
    pub overrun: Moment,
    /// The start of the stop.
    pub stop: Moment,
    /// How often the contactor has closed since begin.
    pub closings: u32,
    /// The currents of the last accepted measure.
    pub lines: Lines,
}

impl Controller {
    /// Cleared memory, which nothing has begun in: every call but begin is refused.
    pub const ZEROED: Controller = {
        let never = Moment {
            set: false,
            time: 0,
        };
        Controller {
            settings: Settings {
                pause: 0,
                rated: 0,
                ventilation: false,
                digital: false,
            },
            limit: 0,
            grant: 0,
            wave: 0,
            closed: false,
            settled: 0,
            faults: Faults {
                diode: 0,
                overcurrent: 0,
                residual: 0,
                welded: 0,
                temperature: 0,
            },
            previous: Previous {
                kept: false,
                verdict: Verdict {
                    band: 0,
                    sound: false,
                    proven: false,
                    diodebad: false,
                },
            },
            last: 0,
            sound: never,
            opening: never,
            overrun: never,
            stop: never,
            closings: 0,
            lines: Lines {
                line1: 0,
                line2: 0,
                line3: 0,
            },
        }
    };
}

/// What a call tells.
#[repr(C)]
#[derive(Clone, Copy, Debug, PartialEq, Eq)]
pub struct Reply {
    /// 0 if the call was accepted, else the number of the refusal.
    pub refusal: u8,
    /// The state's letter in ASCII.
    pub letter: u8,
    /// The state's digit.
    pub digit: u8,
    /// The wave command, in tenths of a percent.
    pub wave: u32,
    /// The contactor command.
    pub closed: bool,
    /// The fault that was latched first among those latched now; 0 if none is.
    pub fault: u8,
    /// How often the contactor has closed since begin.
    pub closings: u32,
    /// The currents of the last accepted measure.
    pub lines: Lines,
}

/// What a van reads from a duty: `struct chuldariin_reading_reply`.
#[repr(C)]
#[derive(Clone, Copy, Debug, PartialEq, Eq)]
pub struct ReadingReply {
    /// 0, or 9.
    pub refusal: u8,
    /// 0 no charging, 1 digital only, 2 a current.
    pub kind: u8,
    /// The current, mA; 0 for the other kinds.
    pub current: u32,
}

/// The greatest duty for an available current: `struct chuldariin_duty_reply`.
#[repr(C)]
#[derive(Clone, Copy, Debug, PartialEq, Eq)]
pub struct DutyReply {
    /// 0, or 10.
    pub refusal: u8,
    /// In tenths of a percent; 0 if refused.
    pub duty: u32,
}

extern "C" {
    pub fn chuldariin_begin(
        c: *mut Controller,
        time: u64,
        rated: u32,
        pause: u64,
        ventilation: bool,
        digital: bool,
    ) -> Reply;
    pub fn chuldariin_sample(
        c: *mut Controller,
        time: u64,
        readings: *const i32,
        count: usize,
    ) -> Reply;
    pub fn chuldariin_limit(c: *mut Controller, time: u64, current: u32) -> Reply;
    pub fn chuldariin_measure_lines(
        c: *mut Controller,
        time: u64,
        line1: u32,
        line2: u32,
        line3: u32,
    ) -> Reply;
    pub fn chuldariin_measure(c: *mut Controller, time: u64, current: u32) -> Reply;
    pub fn chuldariin_link(c: *mut Controller, time: u64, granted: u32) -> Reply;
    pub fn chuldariin_fault(c: *mut Controller, time: u64, kind: u32) -> Reply;
    pub fn chuldariin_clear(c: *mut Controller, time: u64) -> Reply;
    pub fn chuldariin_tick(c: *mut Controller, time: u64) -> Reply;
    pub fn chuldariin_reading(duty: u32) -> ReadingReply;
    pub fn chuldariin_duty(current: u32) -> DutyReply;
}

// The layout that the archive was compiled for.
const _: () = {
    use std::mem::{align_of, offset_of, size_of};
    assert!(size_of::<Controller>() == 128 && align_of::<Controller>() == 8);
    assert!(size_of::<Reply>() == 28 && align_of::<Reply>() == 4);
    assert!(size_of::<Lines>() == 12 && align_of::<Lines>() == 4);
    assert!(size_of::<Settings>() == 16 && size_of::<Moment>() == 16);
    assert!(size_of::<Faults>() == 5 && size_of::<Verdict>() == 4 && size_of::<Previous>() == 5);
    assert!(size_of::<ReadingReply>() == 8 && size_of::<DutyReply>() == 8);
    assert!(offset_of!(Settings, rated) == 8 && offset_of!(Settings, ventilation) == 12);
    assert!(offset_of!(Settings, digital) == 13 && offset_of!(Controller, limit) == 16);
    assert!(offset_of!(Controller, grant) == 20 && offset_of!(Controller, wave) == 24);
    assert!(offset_of!(Controller, closed) == 28 && offset_of!(Controller, settled) == 29);
    assert!(offset_of!(Controller, faults) == 30 && offset_of!(Controller, previous) == 35);
    assert!(offset_of!(Controller, last) == 40 && offset_of!(Controller, sound) == 48);
    assert!(offset_of!(Controller, opening) == 64 && offset_of!(Controller, overrun) == 80);
    assert!(offset_of!(Controller, stop) == 96 && offset_of!(Controller, closings) == 112);
    assert!(offset_of!(Controller, lines) == 116 && offset_of!(Reply, lines) == 16);
    assert!(offset_of!(Reply, wave) == 4 && offset_of!(Reply, closed) == 8);
    assert!(offset_of!(Reply, fault) == 9 && offset_of!(Reply, closings) == 12);
};
