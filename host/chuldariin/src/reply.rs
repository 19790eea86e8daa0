//! What a call tells.
use crate::refusal::{result_of, unknown, Refusal};
use crate::{raw, Milliamps};
use std::fmt;

/// What an accepted call tells.
#[derive(Clone, Copy, Debug, PartialEq, Eq)]
pub struct Reply {
    pub state: State,
    /// The wave command: 0 steady -12 V, 1000 steady +12 V, else a duty in tenths of a percent: 100 to 960 of a
    /// plain post, 50 of a digital one.
    pub wave: u32,
    /// The contactor command.
    pub closed: bool,
    /// The fault that was latched first among those latched now.
    pub fault: Option<Fault>,
    /// How often the contactor has closed since begin.
    pub closings: u32,
    /// The current on each line, line 1 first, as the last accepted measure brought them; 0 before the first.
    pub lines: [Milliamps; 3],
}

/// The state as the standard writes it: B1, C2, U, F ..
#[derive(Clone, Copy, Debug, PartialEq, Eq)]
pub struct State {
    /// `A` to `E`, `U` unsettled, `F` a fault is latched.
    pub letter: char,
    /// 2 under a square wave, 1 under a steady one; 0 where there is none: U, E and F.
    pub digit: u8,
}

impl fmt::Display for State {
    fn fmt(&self, f: &mut fmt::Formatter<'_>) -> fmt::Result {
        match self.digit {
            0 => write!(f, "{}", self.letter),
            digit => write!(f, "{}{digit}", self.letter),
        }
    }
}

/// A fault, by its number.
#[derive(Clone, Copy, Debug, PartialEq, Eq, Hash)]
pub enum Fault {
    Diode = 1,
    Overcurrent = 2,
    Residual = 3,
    Welded = 4,
    Temperature = 5,
}

impl Fault {
    /// Faults 1 to 5.
    pub const ALL: [Fault; 5] = [
        Fault::Diode,
        Fault::Overcurrent,
        Fault::Residual,
        Fault::Welded,
        Fault::Temperature,
    ];

    fn of(number: u8) -> Option<Fault> {
        match number {
            0 => None,
            1 => Some(Fault::Diode),
            2 => Some(Fault::Overcurrent),
            3 => Some(Fault::Residual),
            4 => Some(Fault::Welded),
            5 => Some(Fault::Temperature),
            _ => unknown("fault", number),
        }
    }
}

impl fmt::Display for Fault {
    fn fmt(&self, f: &mut fmt::Formatter<'_>) -> fmt::Result {
        f.write_str(match self {
            Fault::Diode => "no diode",
            Fault::Overcurrent => "over-current",
            Fault::Residual => "residual current",
            Fault::Welded => "welded contact",
            Fault::Temperature => "over-temperature",
        })
    }
}

/// What a van reads from a duty.
#[derive(Clone, Copy, Debug, PartialEq, Eq)]
pub enum Reading {
    NoCharging,
    DigitalOnly,
    Current(Milliamps),
}

pub(crate) fn accepted(reply: raw::Reply) -> Result<Reply, Refusal> {
    result_of(reply.refusal)?;
    Ok(Reply {
        state: State {
            letter: char::from(reply.letter),
            digit: reply.digit,
        },
        wave: reply.wave,
        closed: reply.closed,
        fault: Fault::of(reply.fault),
        closings: reply.closings,
        lines: reply.lines.each().map(Milliamps),
    })
}

pub(crate) fn read(reply: raw::ReadingReply) -> Result<Reading, Refusal> {
    result_of(reply.refusal)?;
    Ok(match reply.kind {
        0 => Reading::NoCharging,
        1 => Reading::DigitalOnly,
        2 => Reading::Current(Milliamps(reply.current)),
        kind => unknown("kind", kind),
    })
}
