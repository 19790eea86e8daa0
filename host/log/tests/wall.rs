//! Dates and times of day as text and back.

use chuldariin_log::Wall;

#[test]
fn dates_come_back_as_they_were() {
    for (text, millis, shown) in [
        ("1970-01-01T00:00:00Z", 0, "1970-01-01T00:00:00.000Z"),
        (
            "2026-11-16T03:40:00Z",
            1_794_800_400_000,
            "2026-11-16T03:40:00.000Z",
        ),
        (
            "2026-11-16T04:40:00+01:00",
            1_794_800_400_000,
            "2026-11-16T04:40:00.000+01:00",
        ),
        (
            "2026-11-15T22:10:00.25-05:30",
            1_794_800_400_250,
            "2026-11-15T22:10:00.250-05:30",
        ),
        (
            "2000-02-29T23:59:59.9999Z",
            951_868_799_999,
            "2000-02-29T23:59:59.999Z",
        ),
        (
            "2016-12-31t23:59:60z",
            1_483_228_799_000,
            "2016-12-31T23:59:59.000Z",
        ),
        ("1969-12-31T23:59:59.999Z", -1, "1969-12-31T23:59:59.999Z"),
        (
            "0000-01-01T00:00:00Z",
            -62_167_219_200_000,
            "0000-01-01T00:00:00.000Z",
        ),
        (
            "9999-12-31T23:59:59.999Z",
            253_402_300_799_999,
            "9999-12-31T23:59:59.999Z",
        ),
    ] {
        let wall = Wall::parse(text).unwrap_or_else(|wrong| panic!("{wrong}"));
        assert_eq!(wall.millis, millis, "{text}");
        assert_eq!(wall.to_string(), shown);
        assert_eq!(Wall::parse(shown), Ok(wall));
    }
}

/// Every day of 800 years follows the one before it, and comes back from its text.
#[test]
fn every_day_has_its_date() {
    let mut last = (1599, 12, 31);
    for day in -135_140_i64..157_054 {
        let wall = Wall::utc(day * 86_400_000).expect("a year that can be written");
        let date = wall.date();
        let (year, month, of_month) = last;
        let follows = [
            (year, month, of_month + 1),
            (year, month + 1, 1),
            (year + 1, 1, 1),
        ];
        assert!(follows.contains(&date), "{last:?} {date:?}");
        assert_eq!(Wall::parse(&wall.to_string()), Ok(wall));
        last = date;
    }
    assert_eq!(last, (2399, 12, 31));
}

#[test]
fn the_ends_of_what_can_be_written() {
    let last = Wall::parse("9999-12-31T23:59:59.999Z").expect("a date");
    assert_eq!(last.plus(1), None);
    assert_eq!(last.plus(i64::MAX), None);
    assert_eq!(last.plus(-1).map(|wall| wall.millis), Some(last.millis - 1));
    assert_eq!(Wall::utc(i64::MIN), None);
}

#[test]
fn dates_that_are_none() {
    let form = "expected a date like 2026-11-16T03:40:00Z or 2026-11-16T04:40:00+01:00";
    for (text, what) in [
        (
            "2026-02-29T00:00:00Z",
            "'2026-02-29T00:00:00Z': month 2 of 2026 has 28 days",
        ),
        (
            "1900-02-29T00:00:00Z",
            "'1900-02-29T00:00:00Z': month 2 of 1900 has 28 days",
        ),
        (
            "2026-11-31T00:00:00Z",
            "'2026-11-31T00:00:00Z': month 11 of 2026 has 30 days",
        ),
        (
            "2026-11-00T00:00:00Z",
            "'2026-11-00T00:00:00Z': month 11 of 2026 has 30 days",
        ),
        (
            "2026-13-01T00:00:00Z",
            "'2026-13-01T00:00:00Z': there is no month 13",
        ),
        (
            "2026-00-01T00:00:00Z",
            "'2026-00-01T00:00:00Z': there is no month 0",
        ),
        (
            "2026-11-16T24:00:00Z",
            "'2026-11-16T24:00:00Z': there is no hour 24",
        ),
        (
            "2026-11-16T03:60:00Z",
            "'2026-11-16T03:60:00Z': there is no minute 60",
        ),
        (
            "2026-11-16T03:40:61Z",
            "'2026-11-16T03:40:61Z': there is no second 61",
        ),
        ("2026-11-16", "'2026-11-16' is no date"),
        ("2026-11-16T03:40:00", "'2026-11-16T03:40:00' is no date"),
        ("2026-11-16 03:40:00Z", "'2026-11-16 03:40:00Z' is no date"),
        (
            "2026-11-16T03:40:00+1:00",
            "'2026-11-16T03:40:00+1:00' is no date",
        ),
        (
            "2026-11-16T03:40:00+24:00",
            "'2026-11-16T03:40:00+24:00' is no date",
        ),
        (
            "2026-11-16T03:40:00+01:60",
            "'2026-11-16T03:40:00+01:60' is no date",
        ),
        (
            "2026-11-16T03:40:00.Z",
            "'2026-11-16T03:40:00.Z' is no date",
        ),
        (
            "2026-11-16T03:40:00,5Z",
            "'2026-11-16T03:40:00,5Z' is no date",
        ),
        (
            "26-11-16T03:40:00.000Z",
            "'26-11-16T03:40:00.000Z' is no date",
        ),
        (
            "2026-11-16T3:40:00.000Z",
            "'2026-11-16T3:40:00.000Z' is no date",
        ),
        (
            "2026-11-16T03:40:00ZZ",
            "'2026-11-16T03:40:00ZZ' is no date",
        ),
        (
            "16.11.2026 03:40:00 h",
            "'16.11.2026 03:40:00 h' is no date",
        ),
        ("+026-11-16T03:40:00Z", "'+026-11-16T03:40:00Z' is no date"),
        (
            "2026-11-1\u{661}T03:40:00Z",
            "'2026-11-1\u{661}T03:40:00Z' is no date",
        ),
        ("", "'' is no date"),
    ] {
        assert_eq!(Wall::parse(text), Err(format!("{what}; {form}")));
    }
}
