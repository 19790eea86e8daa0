//! A call put to the model.

use crate::call::Call;
use crate::window::Room;
use chuldariin_model::{begin, Begin, Evaluated, Outcome, Reply, State};

/// What the model keeps and tells, with these ways to find the levels of a window and the duty for a current.
pub fn answer(
    state: &State,
    call: &Call,
    evaluate: impl FnOnce(&[i32]) -> Evaluated,
    duty: fn(u32) -> Result<u32, u8>,
    room: &mut Room,
) -> (State, Outcome) {
    match (call, call.event(room)) {
        (_, Some(event)) => state.call_by(evaluate, duty, call.time(), &event),
        (Call::Begin(b), None) => answer_begin(state, b),
        (_, None) => unreachable!("only begin is no event"),
    }
}

/// A refused begin keeps the state and comes alone.
fn answer_begin(state: &State, b: &Begin) -> (State, Outcome) {
    let (state, reply) = match begin(b) {
        Ok(fresh) => fresh,
        Err(refusal) => (*state, Reply::alone(refusal)),
    };
    (state, Outcome::without_steps(reply))
}
