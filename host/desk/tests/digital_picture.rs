//! What a picture shows of a digital post.

use chuldariin_desk::plot::WHOLE;
use drawn::{path, picture, places};

mod drawn;

/// 16 A are granted at 25, and 24 A at 400; from 600 on the limit is 20 A.
const CHARGE: &str = "\
begin 0 32000 3000 no digital
limit 0 32000
sample 10 9000 9000
sample 20 9000 9000
link 25 16000
sample 30 6000 -12000
sample 40 6000 -12000
link 400 24000
limit 600 20000
tick 1000
";

/// 0 to 40 A from y 528 to 412; 1,000 ms from x 92 to 1164.
#[test]
fn the_grant_and_what_is_allowed() {
    let svg = picture(CHARGE, WHOLE);
    let grant = places(path(&svg, "grant"));
    assert_eq!(grant.first(), Some(&(92.0, 528.0)));
    assert!(grant.contains(&(118.8, 481.6)) && grant.contains(&(520.8, 458.4)));
    assert_eq!(grant.last(), Some(&(1164.0, 458.4)));
    // The least of grant, rated and limit: 16 A, 24 A, and the limit's 20 A.
    let allowed = places(path(&svg, "announced"));
    assert!(allowed.contains(&(118.8, 481.6)) && allowed.contains(&(520.8, 458.4)));
    assert!(allowed.contains(&(735.2, 470.0)));
    assert_eq!(allowed.last(), Some(&(1164.0, 470.0)));
    for words in [">grant<", ">allowed<", ".grant{"] {
        assert!(svg.contains(words), "{words}");
    }
    assert!(!svg.contains(">announced<"));
}

/// Under a steady wave nothing is allowed, whatever the grant.
#[test]
fn a_stop_allows_nothing() {
    let stop = CHARGE.replace("link 400 24000", "link 70 5000");
    let svg = picture(&stop, (60, 900));
    assert_eq!(
        places(path(&svg, "announced")).last(),
        Some(&(1164.0, 528.0))
    );
    assert_eq!(places(path(&svg, "grant")).last(), Some(&(1164.0, 513.5)));
}

#[test]
fn a_plain_picture_has_neither() {
    let plain = CHARGE
        .replace(" digital", "")
        .replace("link 25 16000\n", "");
    let svg = picture(&plain, WHOLE);
    assert!(svg.contains(">announced<") && svg.contains(" 1 refused<"));
    assert!(!svg.contains("grant{") && !svg.contains("class=\"grant\""));
    // Of a log with lists of both kinds a part that is plain has none either.
    let both = format!("{CHARGE}begin 2000 32000 3000 no\ntick 2500\ntick 3000\n");
    assert!(picture(&both, WHOLE).contains(">grant<"));
    assert!(!picture(&both, (2_400, 2_900)).contains(">grant<"));
}

/// A grant above all else still has its place.
#[test]
fn the_panel_is_high_enough_for_the_grant() {
    let high = CHARGE.replace("24000", "64000").replace("20000", "80000");
    let svg = picture(&high, WHOLE);
    assert!(svg.contains(">90 A<"), "{svg}");
    // 0 to 90 A: what is allowed stays at the rated 32 A.
    let [grant, allowed] = ["grant", "announced"].map(|class| places(path(&svg, class)));
    assert_eq!(grant.last(), Some(&(1164.0, 445.5)));
    assert_eq!(allowed.last(), Some(&(1164.0, 486.8)));
}

#[test]
fn an_over_run_that_nothing_restarts() {
    let svg = picture(
        &CHARGE.replace("link 400 24000", "measure 50 17601\nlink 60 10000\ntick 70"),
        (0, 70),
    );
    assert!(
        svg.contains("<title>over-run: fault 2 at 5050 unless it ends</title>"),
        "{svg}"
    );
    assert!(!svg.contains("restarted"));
}
