//! A call put to the archive.

use crate::call::Call;
use crate::window::Room;
use chuldariin::raw;

/// What the archive tells, lent this controller.
pub fn ask(lent: &mut raw::Controller, call: &Call, room: &mut Room) -> raw::Reply {
    // SAFETY: `lent` is a `&mut`; a slice has the readings that it says; all else are numbers.
    unsafe {
        match *call {
            Call::Begin(b) => {
                raw::chuldariin_begin(lent, b.time, b.rated, b.pause, b.ventilation, b.digital)
            }
            Call::Sample(time, ref window) => {
                let readings = window.readings(room);
                raw::chuldariin_sample(lent, time, readings.as_ptr(), readings.len())
            }
            Call::Limit(time, current) => raw::chuldariin_limit(lent, time, current),
            Call::Measure(time, current) => raw::chuldariin_measure(lent, time, current),
            Call::MeasureLines(time, [line1, line2, line3]) => {
                raw::chuldariin_measure_lines(lent, time, line1, line2, line3)
            }
            Call::Link(time, granted) => raw::chuldariin_link(lent, time, granted),
            Call::Fault(time, kind) => raw::chuldariin_fault(lent, time, kind),
            Call::Clear(time) => raw::chuldariin_clear(lent, time),
            Call::Tick(time) => raw::chuldariin_tick(lent, time),
        }
    }
}
