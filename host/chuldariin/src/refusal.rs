//! Why a call was refused.
use std::error::Error;
use std::fmt;

/// Why a call was refused. The controller is as it was before the call. It displays what is wrong
/// and what to do.
///
/// ```
/// use chuldariin::Refusal;
/// assert_eq!(Refusal::Length.number(), 4);
/// assert_eq!(Refusal::Length.to_string(), "refused 4: hand over 256 to 1,024 readings, and tick for this one");
/// ```
#[derive(Clone, Copy, Debug, PartialEq, Eq, Hash)]
pub enum Refusal {
    /// 1: settings out of range at begin, or a controller that something else wrote into.
    Settings,
    /// 2: a time before that of the last accepted call.
    Earlier,
    /// 3: a time above the largest.
    Late,
    /// 4: the window's length.
    Length,
    /// 5: a reading out of range.
    Reading,
    /// 6: no supported reading.
    Unsupported,
    /// 7: a measured current out of range.
    Measure,
    /// 8: a fault that is not for the host to tell.
    Kind,
    /// 9: a duty above the scale.
    Duty,
    /// 10: a current that no duty announces.
    TooLow,
    /// 11: a grant out of range.
    Grant,
    /// 12: a link call to a plain post.
    Plain,
    /// 13: a limit out of range.
    Limit,
}

const ALL: [Refusal; 13] = [
    Refusal::Settings,
    Refusal::Earlier,
    Refusal::Late,
    Refusal::Length,
    Refusal::Reading,
    Refusal::Unsupported,
    Refusal::Measure,
    Refusal::Kind,
    Refusal::Duty,
    Refusal::TooLow,
    Refusal::Grant,
    Refusal::Plain,
    Refusal::Limit,
];

impl Refusal {
    /// Its number in the table of refusals.
    pub fn number(self) -> u8 {
        self as u8 + 1
    }

    /// The refusal of a number.
    pub fn of(number: u8) -> Option<Refusal> {
        ALL.into_iter().find(|refusal| refusal.number() == number)
    }

    fn advice(self) -> &'static str {
        match self {
            Refusal::Settings => {
                "begin: give rated 6,000 to 80,000 mA, and pause 0 or 1,000 to 60,000 ms. Another call: nothing has begun, \
                 or something else wrote into the controller; open the contactor, begin again and look for it"
            }
            Refusal::Earlier => {
                "the time is before that of the last accepted call: use a clock that never goes back, and open the contactor \
                 until it is mended"
            }
            Refusal::Late => {
                "the time is above 1,000,000,000,000 ms: count milliseconds from the start of the post, and open the contactor \
                 until that is mended"
            }
            Refusal::Length => "hand over 256 to 1,024 readings, and tick for this one",
            Refusal::Reading => "a reading is not -15,000 to 15,000 mV: check the scale and the converter, and tick for this one",
            Refusal::Unsupported => {
                "no reading has 8 readings, itself counted, within 200 mV: look for noise on the pilot line, and tick for this one"
            }
            Refusal::Measure => "give measured currents up to 200,000 mA each: are the meter and its scaling in milliamps?",
            Refusal::Kind => "tell residual current (3), welded contact (4) or over-temperature (5): the controller finds 1 and 2 itself",
            Refusal::Duty => "ask for a duty up to 1000: the unit is a tenth of a percent",
            Refusal::TooLow => "ask for 6,000 mA or more: no duty announces less",
            Refusal::Grant => "give a grant up to 80,000 mA: are the link and its scaling in milliamps?",
            Refusal::Plain => "this post was begun plain, and takes no grant: begin it digital, or leave the link out",
            Refusal::Limit => "give a limit up to 80,000 mA: are the load manager and its scaling in milliamps?",
        }
    }
}

impl fmt::Display for Refusal {
    fn fmt(&self, f: &mut fmt::Formatter<'_>) -> fmt::Result {
        write!(f, "refused {}: {}", self.number(), self.advice())
    }
}

impl Error for Refusal {}

/// Whether the archive accepted.
pub(crate) fn result_of(number: u8) -> Result<(), Refusal> {
    if number == 0 {
        return Ok(());
    }
    match Refusal::of(number) {
        Some(refusal) => Err(refusal),
        None => unknown("refusal", number),
    }
}

/// A number that the archive's contracts leave no room for.
pub(crate) fn unknown(what: &str, number: u8) -> ! {
    panic!("the archive told {what} {number}, which there is none of: is libchuldariin.a of another version?")
}
