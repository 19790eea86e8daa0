//! The auxiliary contact held against the command: does the metal follow?

use chuldariin_log::text::TRAVEL;

/// How a contact fails.
#[derive(Clone, Copy, Debug, PartialEq, Eq)]
pub enum Fails {
    /// Commanded open, and closed.
    Welded,
    /// Commanded closed, and open.
    NotClosing,
}

impl Fails {
    pub fn words(self) -> &'static str {
        match self {
            Fails::Welded => "WELDED",
            Fails::NotClosing => "NOT CLOSING",
        }
    }

    /// What the contact is.
    pub fn state(self) -> &'static str {
        match self {
            Fails::Welded => "closed",
            Fails::NotClosing => "open",
        }
    }

    /// What is commanded.
    pub fn command(self) -> &'static str {
        match self {
            Fails::Welded => "open",
            Fails::NotClosing => "closed",
        }
    }
}

/// A contact that is not as commanded, for longer than it may.
#[derive(Clone, Copy, Debug, PartialEq, Eq)]
pub struct Failing {
    pub fails: Fails,
    /// The command that it does not follow.
    pub command: u64,
    /// Since when it is not as commanded.
    pub from: u64,
    /// It was as commanded before.
    pub by_itself: bool,
}

/// What is to be said of the contact.
#[derive(Clone, Copy, Debug, PartialEq, Eq)]
pub enum Event {
    /// It moved without a command.
    Moves(Failing),
    /// It has failed for so long, and still does.
    Fails(Failing, u64),
    /// It failed for so long, and is as commanded again: it moved itself, or the command did.
    Ends(Failing, u64),
}

/// The contact of a post, and its command. Times are those of one list.
#[derive(Clone, Debug)]
pub struct Contact {
    /// It may take so long to follow, ms.
    travel: u64,
    command: (bool, u64),
    /// What was last reported, and since when it is so.
    reported: Option<(bool, u64)>,
    /// The time of that report, or of a later one.
    latest: u64,
    /// It has been as commanded since the command came.
    followed: bool,
    /// It fails, and that was told.
    told: bool,
    /// The greatest time of a call.
    now: u64,
}

impl Default for Contact {
    fn default() -> Contact {
        Contact {
            travel: TRAVEL,
            command: (false, 0),
            reported: None,
            latest: 0,
            followed: true,
            told: false,
            now: 0,
        }
    }
}

impl Contact {
    /// What was last reported.
    pub fn reported(&self) -> Option<(bool, u64)> {
        self.reported
    }

    /// How long it may take to follow, from here on.
    pub fn travels(&mut self, millis: u64) {
        self.travel = millis;
    }

    /// A call tells the time.
    pub fn at(&mut self, time: u64) -> Option<Event> {
        self.now = self.now.max(time);
        self.judge(time)
    }

    /// Does it fail by then, and was that not told?
    fn judge(&mut self, time: u64) -> Option<Event> {
        let failing = self.failing().filter(|_| !self.told)?;
        let long = time.saturating_sub(failing.from);
        self.told = long > self.travel;
        self.told.then_some(Event::Fails(failing, long))
    }

    /// The contactor is commanded so from now on.
    pub fn command(&mut self, closed: bool, time: u64) -> Option<Event> {
        if self.command.0 == closed {
            return None;
        }
        let ends = self.ends(time);
        self.command = (closed, time);
        self.followed = self.reported.is_some_and(|reported| reported.0 == closed);
        ends
    }

    /// The contact is reported.
    pub fn report(&mut self, closed: bool, time: u64) -> Option<Event> {
        // One that was written late tells nothing new.
        if time < self.latest {
            return None;
        }
        self.latest = time;
        let time = time.max(self.command.1);
        if self.reported.is_some_and(|reported| reported.0 == closed) {
            return self.judge(time);
        }
        let ends = self.ends(time);
        self.reported = Some((closed, time));
        let moves = self
            .failing()
            .filter(|failing| failing.by_itself && !self.bounces(time));
        self.followed |= closed == self.command.0;
        ends.or(moves.map(Event::Moves))
    }

    /// Right after a command a contact may bounce.
    fn bounces(&self, time: u64) -> bool {
        time <= self.command.1.saturating_add(self.travel)
    }

    /// A new list: the contactor is commanded open, on another clock it may be.
    pub fn begin(&mut self, time: u64, runs_on: bool) -> Option<Event> {
        if runs_on {
            let told = self.at(time);
            return self.command(false, time).or(told);
        }
        let ends = self.ends(self.now);
        self.latest = 0;
        self.now = time;
        self.command = (false, time);
        self.reported = self.reported.map(|(closed, _)| (closed, time));
        self.followed = self.reported.is_some_and(|reported| !reported.0);
        ends
    }

    /// The log ends: how long has it failed?
    pub fn end(&self) -> Option<(Failing, u64)> {
        let failing = self.failing().filter(|_| self.told)?;
        Some((failing, self.now.saturating_sub(failing.from)))
    }

    /// Is it not as commanded, and for longer than it may be?
    pub fn is_failing(&self) -> Option<Failing> {
        self.failing().filter(|_| self.told)
    }

    fn failing(&self) -> Option<Failing> {
        let (closed, since) = self
            .reported
            .filter(|reported| reported.0 != self.command.0)?;
        Some(Failing {
            fails: if closed {
                Fails::Welded
            } else {
                Fails::NotClosing
            },
            command: self.command.1,
            from: since.max(self.command.1),
            by_itself: self.followed,
        })
    }

    /// What failed up to now is over; what was no failure yet may have become one by then.
    fn ends(&mut self, time: u64) -> Option<Event> {
        let told = std::mem::take(&mut self.told);
        let failing = self.failing()?;
        let long = time.saturating_sub(failing.from);
        (told || long > self.travel).then_some(Event::Ends(failing, long))
    }
}
