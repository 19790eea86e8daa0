//! Rows on a terminal: folded or cut to its width, and no word lost.

use chuldariin_desk::input::Log;
use chuldariin_desk::paint::Paint;
use chuldariin_desk::plot::WHOLE;
use chuldariin_desk::progress::Progress;
use chuldariin_desk::replay::{replay, Only, Show};

const LOG: &str = "# A comment that is long enough to be folded on a terminal that has only some eighty letters in a line, as most have.\nbegin 0 32000 3000 no\nlimit 0 32000\nsample 10 9000 9000\nsample 20 9000 9000\nsample 30 6000 -12000\nsample 40 6000 -12000\nmeasure 50 40000 1 2\nlimit 60 10000\ntick 200\nlimit 210 80001\n";

fn shown(width: Option<usize>, paint: Paint) -> String {
    let log = Log::of(LOG.as_bytes()).unwrap_or_else(|unfit| panic!("{unfit}"));
    let show = Show {
        width,
        paint,
        ..Show::text(Only::All)
    };
    let mut out = Vec::new();
    replay(&log, WHOLE, show, Progress::none(), &mut out).expect("a replay");
    String::from_utf8(out).expect("UTF-8")
}

/// The table, without the summary.
fn table(shown: &str) -> &str {
    shown.split("\n\nsummary").next().expect("a table")
}

/// What a terminal shows of it.
fn plain(line: &str) -> String {
    let mut parts = line.split('\x1b');
    let first = parts.next().unwrap_or("").to_string();
    parts.fold(first, |shown, part| {
        shown + part.split_once('m').map_or("", |part| part.1)
    })
}

#[test]
fn no_line_is_wider_than_the_terminal() {
    for paint in [Paint::none(), Paint::always()] {
        for width in [40, 60, 80, 100, 132, 140, 150, 160, 200, 250] {
            let shown = shown(Some(width), paint);
            for line in table(&shown).lines() {
                assert!(plain(line).chars().count() <= width, "{width}: {line}");
            }
        }
    }
}

#[test]
fn no_word_of_what_happened_is_lost() {
    let words = "over-run restarts, 10 ms old: the duty is lowered from 53.3 % to 16.6 %; fault 2 at 5060 unless it ends or the duty is lowered";
    let letters = |text: &str| text.split_whitespace().collect::<String>();
    for width in [60, 80, 150, 170] {
        let shown = shown(Some(width), Paint::none());
        assert!(
            letters(&shown).contains(&letters(words)),
            "{width}\n{shown}"
        );
    }
}

#[test]
fn a_line_is_whole_where_there_is_no_terminal() {
    let shown = shown(None, Paint::none());
    assert_eq!(table(&shown).lines().count(), 1 + LOG.lines().count());
}

#[test]
fn narrow_rows_have_their_words_below() {
    let shown = shown(Some(80), Paint::none());
    let rows: Vec<&str> = table(&shown).lines().collect();
    let closing =
        "   7     40  sample 6,000 / -12,000    closed     C2     53.3 % = 31.98 A  C pro";
    let place = rows.iter().position(|row| *row == closing).expect("a row");
    assert_eq!(
        rows[place + 1],
        "      >> CLOSED: proven in C at 30 and 40; not opened since begin"
    );
    assert!(
        rows[1].starts_with("# A comment") && rows[2].starts_with("#   "),
        "{rows:?}"
    );
}
