//! The archive's controller, with safe calls.

use chuldariin::raw::{self, Controller, Reply};
use chuldariin_model::{Begin, Event};

/// How far the archive's sample starts after a multiple of 64 bytes.
pub fn place() -> usize {
    raw::chuldariin_sample as *const () as usize % 64
}

/// A controller of the archive.
#[derive(Clone, Copy)]
pub struct Archive {
    pub controller: Controller,
}

// In every call below the controller is lent whole and for that call only, and the window is a slice.
impl Archive {
    pub fn begin(b: &Begin) -> (Archive, Reply) {
        let mut controller = Controller::ZEROED;
        let reply = unsafe {
            raw::chuldariin_begin(
                &mut controller,
                b.time,
                b.rated,
                b.pause,
                b.ventilation,
                b.digital,
            )
        };
        (Archive { controller }, reply)
    }

    pub fn sample(&mut self, time: u64, window: &[i32]) -> Reply {
        unsafe { raw::chuldariin_sample(&mut self.controller, time, window.as_ptr(), window.len()) }
    }

    pub fn limit(&mut self, time: u64, current: u32) -> Reply {
        unsafe { raw::chuldariin_limit(&mut self.controller, time, current) }
    }

    pub fn measure(&mut self, time: u64, current: u32) -> Reply {
        unsafe { raw::chuldariin_measure(&mut self.controller, time, current) }
    }

    pub fn measure_lines(&mut self, time: u64, lines: [u32; 3]) -> Reply {
        let [line1, line2, line3] = lines;
        unsafe { raw::chuldariin_measure_lines(&mut self.controller, time, line1, line2, line3) }
    }

    pub fn link(&mut self, time: u64, granted: u32) -> Reply {
        unsafe { raw::chuldariin_link(&mut self.controller, time, granted) }
    }

    pub fn fault(&mut self, time: u64, kind: u32) -> Reply {
        unsafe { raw::chuldariin_fault(&mut self.controller, time, kind) }
    }

    pub fn clear(&mut self, time: u64) -> Reply {
        unsafe { raw::chuldariin_clear(&mut self.controller, time) }
    }

    pub fn tick(&mut self, time: u64) -> Reply {
        unsafe { raw::chuldariin_tick(&mut self.controller, time) }
    }

    /// The call that an event of the model stands for.
    pub fn call(&mut self, time: u64, event: &Event) -> Reply {
        match *event {
            Event::Sample(window) => self.sample(time, window),
            Event::Limit(current) => self.limit(time, current),
            // One current, by the call that takes one.
            Event::Measure([current, 0, 0]) => self.measure(time, current),
            Event::Measure(lines) => self.measure_lines(time, lines),
            Event::Link(granted) => self.link(time, granted),
            Event::Fault(kind) => self.fault(time, kind),
            Event::Clear => self.clear(time),
            Event::Tick => self.tick(time),
        }
    }
}
