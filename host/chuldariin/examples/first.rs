//! A first charge: a van is plugged in, gets ready, and the contactor closes.
use chuldariin::{Begin, Milliamps, Millis, Post, Refusal, Reply};

/// What the converter would fill: half of the readings at each level, in millivolts.
fn window(high: i32, low: i32) -> [i32; 256] {
    let mut readings = [high; 256];
    readings[128..].fill(low);
    readings
}

fn show(time: u64, what: &str, answer: Result<Reply, Refusal>) {
    match answer {
        Ok(reply) => {
            let contactor = if reply.closed { "closed" } else { "open" };
            let (state, wave, closings) = (reply.state.to_string(), reply.wave, reply.closings);
            println!("{time:4} ms  {what:22} {state:2}  wave {wave:4}  contactor {contactor:6}  closings {closings}");
        }
        Err(refusal) => println!("{time:4} ms  {what:22} {refusal}"),
    }
}

fn main() -> Result<(), Refusal> {
    let begin = Begin {
        time: Millis(0),
        rated: Milliamps(32_000),
        pause: Millis(0), // stands for 10 s
        ventilation: false,
        digital: false,
    };
    let (mut post, reply) = Post::begin(begin)?;
    show(0, "begin, rated 32 A", Ok(reply));
    show(0, "limit 32 A", post.limit(Millis(0), Milliamps(32_000)));
    for (time, what, high, low) in [
        (10, "sample 9 V", 9_000, 9_000),
        (20, "sample 9 V", 9_000, 9_000),
        (30, "sample 6 V / -12 V", 6_000, -12_000),
        (40, "sample 6 V / -12 V", 6_000, -12_000),
        (50, "sample 9 V / -12 V", 9_000, -12_000),
    ] {
        show(time, what, post.sample(Millis(time), &window(high, low)));
    }
    for time in [120, 121, 100] {
        show(time, "tick", post.tick(Millis(time)));
    }
    Ok(())
}
