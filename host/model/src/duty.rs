//! Duty to current and current to duty.

/// What a van reads from a duty.
#[derive(Clone, Copy, Debug, PartialEq, Eq)]
pub enum Reading {
    NoCharging,
    DigitalOnly,
    /// In mA.
    Current(u32),
}

/// Least and greatest duty of a plain post's driven square wave.
const LEAST: u32 = 100;
const GREATEST: u32 = 960;

/// Duty of a digital post's driven square wave (document 02, request e).
pub(crate) const DIGITAL_DUTY: u32 = 50;

/// No duty is given for a current below this one, and no closing comes under a
/// grant below it, in mA.
pub const LEAST_CURRENT: u32 = 6_000;

/// Is this a duty of a plain post's driven square wave?
pub(crate) fn plain_duty(wave: u32) -> bool {
    (LEAST..=GREATEST).contains(&wave)
}

/// Is this wave command a driven square wave, in a digital post or in a plain one?
pub fn driven(digital: bool, wave: u32) -> bool {
    plain_duty(wave) || (digital && wave == DIGITAL_DUTY)
}

/// Reading of a duty, or refusal 9.
pub fn reading(duty: u32) -> Result<Reading, u8> {
    match duty {
        0..=29 => Ok(Reading::NoCharging),
        30..=70 => Ok(Reading::DigitalOnly),
        71..=79 => Ok(Reading::NoCharging),
        80..=99 => Ok(Reading::Current(6_000)),
        100..=850 => Ok(Reading::Current(60 * duty)),
        851..=960 => Ok(Reading::Current(250 * (duty - 640))),
        961..=970 => Ok(Reading::Current(80_000)),
        971..=1_000 => Ok(Reading::NoCharging),
        _ => Err(9),
    }
}

/// Duty for an available current in mA, or refusal 10.
pub fn duty_for(available: u32) -> Result<u32, u8> {
    if available < LEAST_CURRENT {
        return Err(10);
    }
    // From the top, so the first that fits is the greatest.
    for duty in (LEAST..=GREATEST).rev() {
        if let Ok(Reading::Current(current)) = reading(duty) {
            if current <= available {
                return Ok(duty);
            }
        }
    }
    // Not reached: duty 100 reads 6,000.
    Err(10)
}
