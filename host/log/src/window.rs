//! The readings of a sample.

/// Readings of a `sample` line.
const LENGTH: usize = 256;

/// The readings of a sample, in mV. Made by [`From`], equal readings are equal windows.
#[derive(Clone, Debug, PartialEq, Eq)]
pub enum Window {
    /// 256 readings, the first half at one level and the second half at the other.
    Halves(i32, i32),
    /// Any others.
    Readings(Vec<i32>),
}

/// Room for the readings of [`Window::Halves`].
pub struct Room([i32; LENGTH]);

impl Default for Room {
    fn default() -> Room {
        Room([0; LENGTH])
    }
}

impl Window {
    /// The readings; those of halves are laid out in the room.
    pub fn readings<'a>(&'a self, room: &'a mut Room) -> &'a [i32] {
        match self {
            Window::Halves(first, second) => {
                let (front, back) = room.0.split_at_mut(LENGTH / 2);
                front.fill(*first);
                back.fill(*second);
                &room.0
            }
            Window::Readings(readings) => readings,
        }
    }

    /// The readings, for themselves.
    pub fn to_vec(&self) -> Vec<i32> {
        self.readings(&mut Room::default()).to_vec()
    }

    /// How many readings.
    pub fn length(&self) -> usize {
        match self {
            Window::Halves(..) => LENGTH,
            Window::Readings(readings) => readings.len(),
        }
    }
}

impl From<Vec<i32>> for Window {
    fn from(readings: Vec<i32>) -> Window {
        if readings.len() == LENGTH {
            let halves = Window::Halves(readings[0], readings[LENGTH - 1]);
            if halves.readings(&mut Room::default()) == readings {
                return halves;
            }
        }
        Window::Readings(readings)
    }
}
