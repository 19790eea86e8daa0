//! A shorter list that differs too.

use chuldariin_log::Call;

/// Drops calls as long as the rest still differs. `differs` gives the place of
/// the first call on which the two sides part; the list is cut there.
pub fn shrink(calls: Vec<Call>, differs: impl Fn(&[Call]) -> Option<usize>) -> Vec<Call> {
    let mut calls = calls;
    let mut chunk = calls.len().div_ceil(2).max(1);
    loop {
        let before = calls.len();
        drop_chunks(&mut calls, chunk, &differs);
        if chunk > 1 {
            chunk /= 2;
        } else if calls.len() == before {
            return calls;
        }
    }
}

/// One walk over the list, that drops every chunk which is not needed.
fn drop_chunks(calls: &mut Vec<Call>, chunk: usize, differs: impl Fn(&[Call]) -> Option<usize>) {
    let mut place = 0;
    while place < calls.len() {
        let end = calls.len().min(place + chunk);
        let mut fewer = calls.clone();
        fewer.drain(place..end);
        match differs(&fewer) {
            Some(at) => {
                fewer.truncate(at + 1);
                *calls = fewer;
            }
            None => place = end,
        }
    }
}
