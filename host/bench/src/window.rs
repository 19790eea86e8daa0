//! Window to levels in plain Rust: the archive's own algorithm, the same without its skip, and one that sorts.
//!
//! None of them is inlined, as a call into the archive is not.

/// High and low level, mV.
pub type Levels = (i32, i32);

/// A search of a window.
pub type Search = fn(&[i32]) -> Result<Levels, u8>;

/// A supporter differs by at most so much, mV.
const NEAR: i32 = 200;

/// So many supporters are needed, the reading itself counted.
const NEEDED: usize = 8;

/// The longest window.
const LONGEST: usize = 1_024;

/// Refusal 4 for the length, then refusal 5 for a reading.
fn check(window: &[i32]) -> Result<(), u8> {
    if !(256..=LONGEST).contains(&window.len()) {
        return Err(4);
    }
    if !window.iter().all(|r| (-15_000..=15_000).contains(r)) {
        return Err(5);
    }
    Ok(())
}

/// Do two readings differ by at most 200 mV? With `WIDE` the difference has 64 bits, as in the
/// archive; 32 are enough, as the readings are in range.
#[inline(always)]
fn near<const WIDE: bool>(level: i32, other: i32) -> bool {
    if WIDE {
        let difference = i64::from(level) - i64::from(other);
        (-i64::from(NEAR)..=i64::from(NEAR)).contains(&difference)
    } else {
        (-NEAR..=NEAR).contains(&(level - other))
    }
}

/// Counts until the eighth supporter.
#[inline(always)]
fn supported<const WIDE: bool>(window: &[i32], level: i32) -> bool {
    let mut count = 0;
    for &other in window {
        if near::<WIDE>(level, other) {
            count += 1;
            if count >= NEEDED {
                return true;
            }
        }
    }
    false
}

/// The levels with one more supported reading.
fn widened(found: Option<Levels>, level: i32) -> Levels {
    match found {
        None => (level, level),
        Some((high, low)) => (high.max(level), low.min(level)),
    }
}

/// Moves the code after it on by so many bytes.
#[inline(always)]
fn shift<const BYTES: usize>() {
    #[cfg(target_arch = "x86_64")]
    // Safe: it does nothing, so many times.
    unsafe {
        std::arch::asm!(
            ".skip {bytes}, 0x90",
            bytes = const BYTES,
            options(nomem, nostack, preserves_flags)
        );
    }
}

/// The archive's algorithm: a reading inside the levels found so far is not counted.
///
/// There is a copy of it for each shift, as a short loop may run up to twice as fast at one place in
/// memory as at another.
#[inline(never)]
pub fn same<const WIDE: bool, const SHIFT: usize>(window: &[i32]) -> Result<Levels, u8> {
    shift::<SHIFT>();
    check(window)?;
    let mut found: Option<Levels> = None;
    for &level in window {
        if found.is_some_and(|(high, low)| low <= level && level <= high) {
            continue;
        }
        if supported::<WIDE>(window, level) {
            found = Some(widened(found, level));
        }
    }
    found.ok_or(6)
}

/// The same algorithm at four places in memory.
pub fn copies<const WIDE: bool>() -> [Search; 4] {
    [
        same::<WIDE, 0>,
        same::<WIDE, 16>,
        same::<WIDE, 32>,
        same::<WIDE, 48>,
    ]
}

/// Every reading is counted, also one inside the levels found so far.
#[inline(never)]
pub fn without_skip(window: &[i32]) -> Result<Levels, u8> {
    check(window)?;
    let mut found: Option<Levels> = None;
    for &level in window {
        if supported::<false>(window, level) {
            found = Some(widened(found, level));
        }
    }
    found.ok_or(6)
}

/// Sorts a copy; then the supporters of a reading are its neighbours.
#[inline(never)]
pub fn sorting(window: &[i32]) -> Result<Levels, u8> {
    check(window)?;
    let mut copy = [0; LONGEST];
    let sorted = &mut copy[..window.len()];
    sorted.copy_from_slice(window);
    sorted.sort_unstable();
    let high = (0..sorted.len()).rfind(|&i| supported_at(sorted, i));
    let low = (0..sorted.len()).find(|&i| supported_at(sorted, i));
    match (high, low) {
        (Some(high), Some(low)) => Ok((sorted[high], sorted[low])),
        _ => Err(6),
    }
}

/// Is there a run of eight that holds this place and has both its ends near?
fn supported_at(sorted: &[i32], place: usize) -> bool {
    let level = sorted[place];
    let first = (place + 1).saturating_sub(NEEDED);
    sorted[first..]
        .windows(NEEDED)
        .take(place - first + 1)
        .any(|run| level - run[0] <= NEAR && run[NEEDED - 1] - level <= NEAR)
}
