//! The wall's clock: a date and a time of day, with its offset from UTC (RFC 3339).

use std::fmt;

const MINUTE: i64 = 60_000;
const DAY: i64 = 24 * 60 * MINUTE;
const FORM: &str = "expected a date like 2026-11-16T03:40:00Z or 2026-11-16T04:40:00+01:00";

/// A moment of the wall's clock, from year 0 to 9999.
#[derive(Clone, Copy, Debug, PartialEq, Eq)]
pub struct Wall {
    /// ms since 1970-01-01T00:00:00Z.
    pub millis: i64,
    /// Minutes by which the place where it is shown is ahead of UTC.
    pub offset: i16,
}

impl Wall {
    /// A date as RFC 3339 has it, or what is wrong with it. More than three digits of a second are cut.
    pub fn parse(text: &str) -> Result<Wall, String> {
        let misshapen = || format!("'{}' is no date; {FORM}", shown(text));
        if !text.is_ascii() || text.len() < 20 {
            return Err(misshapen());
        }
        let (date, rest) = text.split_at(10);
        let (time, rest) = rest.split_at(9);
        let days = parts(date, &['-', '-']).ok_or_else(misshapen)?;
        let seconds = parts(time, &['T', ':', ':']).or_else(|| parts(time, &['t', ':', ':']));
        let seconds = seconds.ok_or_else(misshapen)?;
        let (fraction, zone) = fraction(rest).ok_or_else(misshapen)?;
        let offset = offset(zone).ok_or_else(misshapen)?;
        let wrong = |what: String| format!("'{text}': {what}; {FORM}");
        let day = day(days[0], days[1], days[2]).map_err(wrong)?;
        let second = of_day(seconds[1], seconds[2], seconds[3]).map_err(wrong)?;
        let millis = day * DAY + second * 1_000 + fraction - i64::from(offset) * MINUTE;
        Ok(Wall { millis, offset })
    }

    /// So many ms later, or before; none outside the years that can be written.
    pub fn plus(self, millis: i64) -> Option<Wall> {
        let millis = self.millis.checked_add(millis)?;
        let local = millis.checked_add(i64::from(self.offset) * MINUTE)?;
        let years = day(0, 1, 1).ok()? * DAY..(day(9_999, 12, 31).ok()? + 1) * DAY;
        years.contains(&local).then_some(Wall { millis, ..self })
    }

    /// The same moment as it is shown in UTC.
    pub fn utc(millis: i64) -> Option<Wall> {
        let start = Wall {
            millis: 0,
            offset: 0,
        };
        start.plus(millis)
    }

    /// Its date: year, month and day.
    pub fn date(self) -> (i64, i64, i64) {
        date(self.local().div_euclid(DAY))
    }

    /// Its time of day: hours, minutes, seconds and ms.
    pub fn clock(self) -> (i64, i64, i64, i64) {
        let millis = self.local().rem_euclid(DAY);
        let seconds = millis / 1_000;
        (
            seconds / 3_600,
            seconds / 60 % 60,
            seconds % 60,
            millis % 1_000,
        )
    }

    fn local(self) -> i64 {
        self.millis + i64::from(self.offset) * MINUTE
    }
}

impl fmt::Display for Wall {
    fn fmt(&self, f: &mut fmt::Formatter<'_>) -> fmt::Result {
        let ((year, month, day), (hour, minute, second, millis)) = (self.date(), self.clock());
        write!(
            f,
            "{year:04}-{month:02}-{day:02}T{hour:02}:{minute:02}:{second:02}.{millis:03}"
        )?;
        let (sign, offset) = (if self.offset < 0 { '-' } else { '+' }, self.offset.abs());
        match offset {
            0 => write!(f, "Z"),
            _ => write!(f, "{sign}{:02}:{:02}", offset / 60, offset % 60),
        }
    }
}

/// So much of a wrong date is shown.
fn shown(text: &str) -> String {
    text.chars().take(40).flat_map(char::escape_debug).collect()
}

/// Whole numbers between these signs; a sign in front of all gives a number 0 before it.
fn parts(text: &str, signs: &[char]) -> Option<Vec<i64>> {
    let mut numbers = Vec::new();
    let mut rest = text;
    for sign in signs {
        let (number, behind) = rest.split_once(*sign)?;
        numbers.push(if number.is_empty() {
            0
        } else {
            digits(number)?
        });
        rest = behind;
    }
    numbers.push(digits(rest)?);
    let wide = if signs.len() == 2 {
        [4, 2, 2].as_slice()
    } else {
        &[0, 2, 2, 2]
    };
    let widths = text.split(|c: char| signs.contains(&c)).map(str::len);
    widths.eq(wide.iter().copied()).then_some(numbers)
}

fn digits(text: &str) -> Option<i64> {
    let all = !text.is_empty() && text.bytes().all(|byte| byte.is_ascii_digit());
    if all {
        text.parse().ok()
    } else {
        None
    }
}

/// The ms behind a point, if there is one, and what follows.
fn fraction(text: &str) -> Option<(i64, &str)> {
    let Some(rest) = text.strip_prefix('.') else {
        return Some((0, text));
    };
    let length = rest.bytes().take_while(u8::is_ascii_digit).count();
    if length == 0 {
        return None;
    }
    let first: String = rest.chars().take(length.min(3)).collect();
    Some((digits(&format!("{first:0<3}"))?, &rest[length..]))
}

/// Z, or hours and minutes ahead of UTC or behind it.
fn offset(text: &str) -> Option<i16> {
    if text == "Z" || text == "z" {
        return Some(0);
    }
    let sign = match text.chars().next()? {
        '+' => 1,
        '-' => -1,
        _ => return None,
    };
    let (hours, minutes) = text[1..].split_once(':')?;
    if (hours.len(), minutes.len()) != (2, 2) {
        return None;
    }
    let (hours, minutes) = (digits(hours)?, digits(minutes)?);
    let fits = hours < 24 && minutes < 60;
    fits.then_some(sign * (hours * 60 + minutes) as i16)
}

fn is_leap(year: i64) -> bool {
    year % 4 == 0 && (year % 100 != 0 || year % 400 == 0)
}

fn days_of(year: i64, month: i64) -> i64 {
    match month {
        2 if is_leap(year) => 29,
        2 => 28,
        4 | 6 | 9 | 11 => 30,
        _ => 31,
    }
}

/// Days since 1970-01-01, or what is wrong with the date.
fn day(year: i64, month: i64, day: i64) -> Result<i64, String> {
    if !(1..=12).contains(&month) {
        return Err(format!("there is no month {month}"));
    }
    let most = days_of(year, month);
    if !(1..=most).contains(&day) {
        return Err(format!("month {month} of {year} has {most} days"));
    }
    let months: i64 = (1..month).map(|month| days_of(year, month)).sum();
    Ok(before(year) - before(1970) + months + day - 1)
}

/// Days of the years before one, from year 0 on.
fn before(year: i64) -> i64 {
    let leaps = |years: i64| years / 4 - years / 100 + years / 400;
    // Year 0 is a leap year.
    let earlier = if year > 0 { leaps(year - 1) + 1 } else { 0 };
    365 * year + earlier
}

/// Seconds of the day; a leap second is the last second of its minute.
fn of_day(hour: i64, minute: i64, second: i64) -> Result<i64, String> {
    match (hour, minute, second) {
        (24.., _, _) => Err(format!("there is no hour {hour}")),
        (_, 60.., _) => Err(format!("there is no minute {minute}")),
        (_, _, 61..) => Err(format!("there is no second {second}")),
        _ => Ok(hour * 3_600 + minute * 60 + second.min(59)),
    }
}

/// The date of a day since 1970-01-01.
fn date(days: i64) -> (i64, i64, i64) {
    let days = days + before(1970);
    // Years are 365.2425 days long: the guess is off by one at most.
    let guess = (days * 400).div_euclid(146_097);
    let year = match days {
        _ if before(guess) > days => guess - 1,
        _ if before(guess + 1) <= days => guess + 1,
        _ => guess,
    };
    let (mut month, mut rest) = (1, days - before(year));
    while rest >= days_of(year, month) {
        rest -= days_of(year, month);
        month += 1;
    }
    (year, month, rest + 1)
}
