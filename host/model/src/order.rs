//! The order in which the faults were latched (document 02, request f).

/// The latched faults, the one latched first in front.
#[derive(Clone, Copy, Debug, Default, PartialEq, Eq)]
pub struct Order {
    /// Numbers of faults. 0 is an empty place; these come last.
    places: [u32; 5],
}

impl Order {
    /// The order with these places; `None` if they are none: each fault once, and the
    /// empty places last.
    pub fn of(places: [u32; 5]) -> Option<Order> {
        let latched = places.iter().take_while(|place| **place != 0);
        let mut order = Order::default();
        latched.for_each(|fault| order.latch(*fault));
        let faults = places.iter().all(|place| *place <= 5);
        (faults && order.places == places).then_some(order)
    }

    /// The fault latched first, 0 if the order is empty.
    pub fn first(&self) -> u32 {
        self.places[0]
    }

    /// All places, the first in front; 0 is an empty one.
    pub fn places(&self) -> [u32; 5] {
        self.places
    }

    /// A latched fault takes the first empty place, or keeps the place it has.
    pub(crate) fn latch(&mut self, fault: u32) {
        if self.places.contains(&fault) {
            return;
        }
        if let Some(place) = self.places.iter_mut().find(|place| **place == 0) {
            *place = fault;
        }
    }

    /// Does it have these latched faults and no others?
    pub(crate) fn is_of(&self, faults: &[bool; 5]) -> bool {
        (1..=5).all(|fault| self.places.contains(&fault) == faults[fault as usize - 1])
    }
}
