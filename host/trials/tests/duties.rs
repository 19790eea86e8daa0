//! Every duty and every current, with what lies beyond.

use chuldariin::raw;
use chuldariin_model::{duty_for, reading, Reading};
use chuldariin_trials::tally::Tally;

/// Beyond every range.
const EXTREMES: [u32; 8] = [
    100_000,
    200_000,
    1_000_000,
    65_536 * 1_000,
    i32::MAX as u32,
    i32::MAX as u32 + 1,
    u32::MAX - 1,
    u32::MAX,
];

fn archive_reading(duty: u32) -> raw::ReadingReply {
    // SAFETY: only numbers go in and out.
    unsafe { raw::chuldariin_reading(duty) }
}

fn archive_duty(current: u32) -> raw::DutyReply {
    // SAFETY: only numbers go in and out.
    unsafe { raw::chuldariin_duty(current) }
}

/// The model's reading in the archive's form.
fn model_reading(duty: u32) -> raw::ReadingReply {
    let (refusal, kind, current) = match reading(duty) {
        Ok(Reading::NoCharging) => (0, 0, 0),
        Ok(Reading::DigitalOnly) => (0, 1, 0),
        Ok(Reading::Current(current)) => (0, 2, current),
        Err(refusal) => (refusal, 0, 0),
    };
    raw::ReadingReply {
        refusal,
        kind,
        current,
    }
}

/// The model's duty in the archive's form.
fn model_duty(current: u32) -> raw::DutyReply {
    match duty_for(current) {
        Ok(duty) => raw::DutyReply { refusal: 0, duty },
        Err(refusal) => raw::DutyReply { refusal, duty: 0 },
    }
}

#[test]
fn every_duty_reads_as_in_the_model() {
    let mut tally = Tally::default();
    for duty in (0..=1_100).chain(EXTREMES) {
        let reply = archive_reading(duty);
        assert_eq!(
            reply,
            model_reading(duty),
            "archive, model: reading of {duty}"
        );
        match reply.refusal {
            0 => tally.count("reading refusal", "0"),
            _ => tally.count("reading refusal", "9"),
        }
        match reply.kind {
            0 => tally.count("reading kind", "no charging"),
            1 => tally.count("reading kind", "digital only"),
            _ => tally.count("reading kind", "a current"),
        }
    }
    println!("{}", tally.table());
    assert_eq!(tally.of("reading refusal", "0"), 1_001);
    assert_eq!(
        tally.of("reading refusal", "9"),
        100 + EXTREMES.len() as u64
    );
    assert_eq!(tally.of("reading kind", "digital only"), 41);
    assert_eq!(tally.of("reading kind", "a current"), 891);
}

/// The table of readings that the ranges took the place of, as the proofs keep it: 0 no charging,
/// 1 digital only, any other number a current.
const TABLE: &str = include_str!("../../../crates/duty/proofs/Table.antt");

fn tabled() -> Vec<u32> {
    let (_, list) = TABLE.split_once("entries =").expect("the table's list");
    let entries = list.split('∷').map(str::trim);
    let numbers = entries.take_while(|entry| *entry != "[]");
    numbers.map(|entry| entry.parse().expect(entry)).collect()
}

#[test]
fn every_duty_reads_as_the_table_gave() {
    let table = tabled();
    assert_eq!(table.len(), 1_001);
    for (duty, entry) in (0..).zip(table) {
        let (kind, current) = match entry {
            0 => (0, 0),
            1 => (1, 0),
            current => (2, current),
        };
        let given = raw::ReadingReply {
            refusal: 0,
            kind,
            current,
        };
        assert_eq!(
            archive_reading(duty),
            given,
            "archive, table: reading of {duty}"
        );
    }
}

#[test]
fn every_current_has_the_greatest_duty() {
    let mut tally = Tally::default();
    let driven: Vec<(u32, raw::ReadingReply)> = (100..=960)
        .map(|duty| (duty, archive_reading(duty)))
        .collect();
    for current in (0..=80_100).chain(EXTREMES) {
        let reply = archive_duty(current);
        assert_eq!(
            reply,
            model_duty(current),
            "archive, model: duty for {current}"
        );
        let fits = driven.iter().filter(|(_, read)| read.current <= current);
        let greatest = fits.map(|(duty, _)| *duty).max();
        match reply.refusal {
            0 => tally.count("duty refusal", "0"),
            _ => tally.count("duty refusal", "10"),
        }
        let found = (reply.refusal == 0).then_some(reply.duty);
        assert_eq!(found, greatest, "found, greatest: duty for {current}");
    }
    println!("{}", tally.table());
    assert_eq!(tally.of("duty refusal", "10"), 6_000);
    assert_eq!(
        tally.of("duty refusal", "0"),
        74_101 + EXTREMES.len() as u64
    );
}
