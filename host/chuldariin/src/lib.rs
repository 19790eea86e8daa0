//! The proved control pilot controller of an AC charging post, from Rust.
//!
//! A [`Post`] owns its controller, and every call of the archive works on it. Every call is answered:
//! with a [`Reply`], or with the [`Refusal`] that says why it was refused and what to do, and then
//! the controller is as it was.
//!
//! A refused call judges nothing, also not the 80 ms without a sound sample. So a host ticks where a
//! sample is refused, and opens the contactor where that is refused too, at least every 20 ms:
//!
//! ```
//! # use chuldariin::{Begin, Milliamps, Millis, Post};
//! # fn drive(_wave: u32, _closed: bool) {}
//! fn turn(post: &mut Post, now: Millis, readings: &[i32]) {
//!     let judged = post.sample(now, readings).or_else(|_| post.tick(now));
//!     match judged {
//!         Ok(reply) => drive(reply.wave, reply.closed),
//!         Err(_) => drive(0, false),
//!     }
//! }
//! # let begin = Begin { time: Millis(0), rated: Milliamps(6_000), pause: Millis(0), ventilation: true, digital: false };
//! # let (mut post, _) = Post::begin(begin)?;
//! # turn(&mut post, Millis(20), &[9_000; 255]);
//! # assert_eq!(post.controller().last, 20);
//! # Ok::<(), chuldariin::Refusal>(())
//! ```
//!
//! A first charge:
//!
//! ```
//! use chuldariin::{Begin, Milliamps, Millis, Post};
//!
//! let (mut post, _) = Post::begin(Begin {
//!     time: Millis(0),
//!     rated: Milliamps(32_000),
//!     pause: Millis(0), // stands for 10 s
//!     ventilation: false,
//!     digital: false,
//! })?;
//! post.limit(Millis(0), Milliamps(32_000))?;
//!
//! // A van is plugged in: 9 V, and no wave yet.
//! let plugged = [9_000; 256];
//! post.sample(Millis(10), &plugged)?;
//! let reply = post.sample(Millis(20), &plugged)?;
//! assert_eq!(reply.state.to_string(), "B2");
//! assert_eq!(reply.wave, 533);
//!
//! // It is ready, with a sound diode: the second proven sample closes the contactor.
//! let mut ready = [6_000; 256];
//! ready[128..].fill(-12_000);
//! post.sample(Millis(30), &ready)?;
//! let reply = post.sample(Millis(40), &ready)?;
//! assert!(reply.closed);
//! assert_eq!(reply.closings, 1);
//! # Ok::<(), chuldariin::Refusal>(())
//! ```

pub mod raw;
mod refusal;
mod reply;

pub use refusal::Refusal;
pub use reply::{Fault, Reading, Reply, State};

/// A time, in milliseconds.
#[derive(Clone, Copy, Debug, PartialEq, Eq, PartialOrd, Ord)]
pub struct Millis(pub u64);

/// A current, in milliamps.
#[derive(Clone, Copy, Debug, PartialEq, Eq, PartialOrd, Ord)]
pub struct Milliamps(pub u32);

/// What a controller begins with.
#[derive(Clone, Copy, Debug, PartialEq, Eq)]
pub struct Begin {
    pub time: Millis,
    /// Rated current of the post, 6,000 to 80,000 mA.
    pub rated: Milliamps,
    /// Least time between an opening and the next closing, 1,000 to 60,000 ms; 0 for 10,000.
    pub pause: Millis,
    /// Whether the post has ventilation.
    pub ventilation: bool,
    /// The mark: a digital post drives 5 %, and takes the current that was agreed over the link.
    pub digital: bool,
}

/// A post's controller.
#[derive(Clone, Debug, PartialEq, Eq)]
pub struct Post {
    controller: raw::Controller,
}

impl Post {
    /// A controller that begins afresh.
    ///
    /// ```
    /// use chuldariin::{Begin, Milliamps, Millis, Post, Refusal};
    /// let begin = Begin { time: Millis(0), rated: Milliamps(5_999), pause: Millis(0), ventilation: false, digital: false };
    /// assert_eq!(Post::begin(begin).unwrap_err(), Refusal::Settings);
    /// ```
    pub fn begin(begin: Begin) -> Result<(Post, Reply), Refusal> {
        let mut post = Post {
            controller: raw::Controller::ZEROED,
        };
        let reply = post.begin_again(begin)?;
        Ok((post, reply))
    }

    /// Begins afresh with other settings. Refused, the controller is as it was.
    pub fn begin_again(&mut self, begin: Begin) -> Result<Reply, Refusal> {
        let Begin {
            time,
            rated,
            pause,
            ventilation,
            digital,
        } = begin;
        // SAFETY: a `&mut` is what the archive asks of the pointer.
        let reply = unsafe {
            raw::chuldariin_begin(
                &mut self.controller,
                time.0,
                rated.0,
                pause.0,
                ventilation,
                digital,
            )
        };
        reply::accepted(reply)
    }

    /// A window of 256 to 1,024 readings of the pilot line, in millivolts. All of them come after the
    /// wave that was last commanded, and none is in another window (README, "What the host owes").
    pub fn sample(&mut self, time: Millis, readings: &[i32]) -> Result<Reply, Refusal> {
        // SAFETY: as above, and a slice's pointer and length are what the archive asks of a window.
        let reply = unsafe {
            raw::chuldariin_sample(
                &mut self.controller,
                time.0,
                readings.as_ptr(),
                readings.len(),
            )
        };
        reply::accepted(reply)
    }

    /// The depot's limit, 0 to 80,000 mA. If it lowers the duty, a running over-run restarts: the van has
    /// 5 s to follow. In a digital post the wave tells the van of no limit: agree less over the link first.
    pub fn limit(&mut self, time: Millis, current: Milliamps) -> Result<Reply, Refusal> {
        // SAFETY: as in begin_again.
        reply::accepted(unsafe { raw::chuldariin_limit(&mut self.controller, time.0, current.0) })
    }

    /// The current measured on each line, line 1 first, 0 to 200,000 mA each. With the contactor closed and
    /// the wave driven, more than 1.1 times the allowed current on any of them is an over-run, which is
    /// fault 2 after 5 s. A plain post allows what its duty announces, a digital one the least of grant,
    /// rated and limit.
    pub fn measure_lines(&mut self, time: Millis, lines: [Milliamps; 3]) -> Result<Reply, Refusal> {
        let [line1, line2, line3] = lines.map(|line| line.0);
        // SAFETY: as in begin_again.
        reply::accepted(unsafe {
            raw::chuldariin_measure_lines(&mut self.controller, time.0, line1, line2, line3)
        })
    }

    /// One current, 0 to 200,000 mA: [`Post::measure_lines`] with that current on line 1, and 0 on the others.
    /// Each measure replaces all three, so a host uses one of the two calls.
    pub fn measure(&mut self, time: Millis, current: Milliamps) -> Result<Reply, Refusal> {
        // SAFETY: as in begin_again.
        reply::accepted(unsafe { raw::chuldariin_measure(&mut self.controller, time.0, current.0) })
    }

    /// The current that was agreed over the digital link, 0 to 80,000 mA; a plain post refuses it. A digital
    /// post closes with 6,000 or more, and stops its van while it is closed with less. With A settled the
    /// grant is 0, so it is told after B was. Nothing else takes it away but begin: tell 0 when the link is
    /// lost, and whenever the van may have changed without A being told, as under a fault: before the clear.
    pub fn link(&mut self, time: Millis, granted: Milliamps) -> Result<Reply, Refusal> {
        // SAFETY: as in begin_again.
        reply::accepted(unsafe { raw::chuldariin_link(&mut self.controller, time.0, granted.0) })
    }

    /// A fault from outside: residual current, welded contact or over-temperature. The other two are
    /// the controller's own, and refused.
    pub fn fault(&mut self, time: Millis, fault: Fault) -> Result<Reply, Refusal> {
        // SAFETY: as in begin_again.
        reply::accepted(unsafe {
            raw::chuldariin_fault(&mut self.controller, time.0, fault as u32)
        })
    }

    /// Drops every latched fault, and with them their order.
    pub fn clear(&mut self, time: Millis) -> Result<Reply, Refusal> {
        // SAFETY: as in begin_again.
        reply::accepted(unsafe { raw::chuldariin_clear(&mut self.controller, time.0) })
    }

    /// Nothing but the time.
    pub fn tick(&mut self, time: Millis) -> Result<Reply, Refusal> {
        // SAFETY: as in begin_again.
        reply::accepted(unsafe { raw::chuldariin_tick(&mut self.controller, time.0) })
    }

    /// The latched faults in the order in which they were latched: the first of them is the one that a reply tells.
    /// In a post made by [`Post::with`] from places that no list leads to, it need not be the same one.
    ///
    /// ```
    /// use chuldariin::{Begin, Fault, Milliamps, Millis, Post};
    /// let begin = Begin { time: Millis(0), rated: Milliamps(32_000), pause: Millis(0), ventilation: false, digital: false };
    /// let (mut post, _) = Post::begin(begin).unwrap();
    /// post.fault(Millis(20), Fault::Welded).unwrap();
    /// let reply = post.fault(Millis(40), Fault::Residual).unwrap();
    /// assert_eq!(reply.fault, Some(Fault::Welded));
    /// assert_eq!(post.faults(), [Fault::Welded, Fault::Residual]);
    /// ```
    pub fn faults(&self) -> Vec<Fault> {
        let places = self.controller.faults.each();
        let mut latched: Vec<Fault> = Fault::ALL
            .into_iter()
            .filter(|&fault| places[fault as usize - 1] != 0)
            .collect();
        latched.sort_by_key(|&fault| places[fault as usize - 1]);
        latched
    }

    /// What the controller holds.
    pub fn controller(&self) -> &raw::Controller {
        &self.controller
    }

    /// A post with this controller, whatever it holds. The next call refuses one whose wave, limit, grant,
    /// rated current, pause, stored times or closings are out of range; any other is taken as it is,
    /// also with currents that no measure could have brought, or with faults in no order.
    pub fn with(controller: raw::Controller) -> Post {
        Post { controller }
    }
}

/// What a van reads from a duty, in tenths of a percent, by the rows of table A3.9.
///
/// ```
/// use chuldariin::{reading, Milliamps, Reading, Refusal};
/// assert_eq!(reading(533), Ok(Reading::Current(Milliamps(31_980))));
/// assert_eq!(reading(79), Ok(Reading::NoCharging));
/// assert_eq!(reading(1001), Err(Refusal::Duty));
/// ```
pub fn reading(duty: u32) -> Result<Reading, Refusal> {
    // SAFETY: numbers alone cross.
    reply::read(unsafe { raw::chuldariin_reading(duty) })
}

/// The greatest duty that announces no more than the available current, in tenths of a percent.
///
/// ```
/// use chuldariin::{duty_for, Milliamps, Refusal};
/// assert_eq!(duty_for(Milliamps(32_000)), Ok(533));
/// assert_eq!(duty_for(Milliamps(5_999)), Err(Refusal::TooLow));
/// ```
pub fn duty_for(available: Milliamps) -> Result<u32, Refusal> {
    // SAFETY: numbers alone cross.
    let reply = unsafe { raw::chuldariin_duty(available.0) };
    refusal::result_of(reply.refusal)?;
    Ok(reply.duty)
}
