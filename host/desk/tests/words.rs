//! Numbers and waves in words.

use chuldariin_desk::words::{amps, counted, grouped, wave};

#[test]
fn numbers_by_threes() {
    for (number, words) in [
        (0_i64, "0"),
        (7, "7"),
        (999, "999"),
        (1_000, "1,000"),
        (-999, "-999"),
        (-12_000, "-12,000"),
        (1_000_000_000_001, "1,000,000,000,001"),
    ] {
        assert_eq!(grouped(number), words);
    }
    assert_eq!(grouped(i32::MIN), "-2,147,483,648");
    assert_eq!(grouped(u64::MAX), "18,446,744,073,709,551,615");
    assert_eq!(
        (counted(1, "call"), counted(1_000, "call")),
        ("1 call".to_string(), "1,000 calls".to_string())
    );
}

#[test]
fn currents_and_waves() {
    assert_eq!(
        [
            amps(6_000),
            amps(31_980),
            amps(52_750),
            amps(999),
            amps(80_005)
        ],
        ["6.00 A", "31.98 A", "52.75 A", "0.999 A", "80.005 A"]
    );
    let waves = [0, 50, 100, 533, 850, 851, 960, 1_000];
    let words = [
        "-12 V",
        "5.0 %",
        "10.0 % = 6.00 A",
        "53.3 % = 31.98 A",
        "85.0 % = 51.00 A",
        "85.1 % = 52.75 A",
        "96.0 % = 80.00 A",
        "+12 V",
    ];
    assert_eq!(waves.map(wave), words);
}
