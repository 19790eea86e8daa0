//! The latched faults, in the order in which they were latched.

use crate::words::fault;
use chuldariin_model::State;

/// The latched faults of a controller.
#[derive(Clone, Copy, Debug, PartialEq, Eq)]
pub struct Latched {
    /// Their numbers, the one latched first in front; 0 is no fault.
    places: [u8; 5],
    /// An altered controller has no order: its faults stand by number.
    ordered: bool,
}

impl Latched {
    pub fn of(state: &State) -> Latched {
        let latched = |number: u8| state.faults[usize::from(number) - 1];
        let by_number = [1, 2, 3, 4, 5].map(|number| if latched(number) { number } else { 0 });
        let order = state.known_order();
        Latched {
            places: order.map_or(by_number, |order| order.places().map(|number| number as u8)),
            ordered: order.is_some(),
        }
    }

    /// Their numbers, the first in front.
    pub fn numbers(&self) -> impl Iterator<Item = u8> {
        self.places.into_iter().filter(|number| *number != 0)
    }

    /// All of them in words, and which was first; empty if there is none.
    pub fn words(&self) -> String {
        let names: Vec<&str> = self.numbers().map(fault).collect();
        match names.split_first() {
            Some((first, behind)) if self.ordered && !behind.is_empty() => {
                format!("{first} first, then {}", behind.join(", then "))
            }
            _ => names.join(", "),
        }
    }

    /// One of them, and how many more there are.
    pub fn with_more(&self, number: u8) -> String {
        let name = fault(number);
        match self.numbers().count() {
            0 | 1 => name.to_string(),
            count => format!("{name} +{}", count - 1),
        }
    }

    /// The first, for a fault that stands behind it.
    pub fn first_before(&self, number: u8) -> Option<&'static str> {
        let first = self.numbers().next().filter(|_| self.ordered)?;
        (first != number).then(|| fault(first))
    }
}
