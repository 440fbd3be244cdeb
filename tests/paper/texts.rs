//! The whole case of SCOPE 11.1, and cases of the ticket and the report that need no working out.

use super::program::{judge_ticket, printed};
use super::report::{answer, figure};

/// The ticket of SCOPE 11.1.
pub const WHOLE_CASE: [&str; 8] = [
    "formula=CMC",
    "white=D65/10",
    "l=1.000",
    "c=1.000",
    "tol=1.000",
    "space=LAB",
    "ref=50 0 0",
    "test=51 0 0",
];

/// Its report.
const WHOLE_REPORT: &str = "\
formula=CMC
white=D65/10
l=1.000
c=1.000
DE=0.9189
DL=0.9189
DC=withheld
DH=withheld
lightness=lighter
chroma=withheld
hue=withheld
verdict=pass
";

/// The lines, each with its LF.
pub fn text_of(lines: &[&str]) -> Vec<u8> {
    lines
        .iter()
        .map(|line| format!("{line}\n"))
        .collect::<String>()
        .into_bytes()
}

pub fn check() {
    right_texts();
    shown_figures();
    rooms();
}

/// The whole case with some of its lines, parted by |, in the places that their keys name.
pub fn with(edits: &str) -> Vec<u8> {
    let key = |line: &str| line.split('=').next().map(str::to_string);
    let mut lines = WHOLE_CASE;
    for edit in edits.split('|') {
        let place = lines.iter().position(|line| key(line) == key(edit));
        lines[place.expect("a key of the whole case")] = edit;
    }
    text_of(&lines)
}

pub fn prints(text: &[u8], wanted: &str) {
    let (got, shown) = (printed(text), String::from_utf8_lossy(text));
    assert_eq!(String::from_utf8_lossy(&got), wanted, "for {shown:?}");
}

fn ends_with(text: &[u8], end: &str) -> bool {
    printed(text).ends_with(end.as_bytes())
}

/// The whole case without its lines from one to another, counted from 1.
pub fn without(from: usize, to: usize) -> Vec<u8> {
    text_of(&[&WHOLE_CASE[..from - 1], &WHOLE_CASE[to..]].concat())
}

/// Tickets that are right, each with its report or the end of it.
fn right_texts() {
    prints(&text_of(&WHOLE_CASE), WHOLE_REPORT);
    same_ticket_in_other_words();
    without_l_and_c();
    verdicts_and_withheld();
    whole_reports();
    // SCOPE 3.3 and 3.4: the ends are in range
    for edits in [
        "l=0.5|c=10|tol=0.1|ref=120 256 -256",
        "l=10.000|c=0.500|tol=10|test=0 -256 256",
        "space=XYZ|ref=150 150 150|test=0 0 0",
    ] {
        assert!(judge_ticket(&with(edits)).is_ok(), "{edits}");
    }
}

fn same_ticket_in_other_words() {
    for edits in [
        "l=1|c=01.0|tol=01.00|ref=050.000000 -0 -000.0",
        "l=01.00|c=1.0|tol=1|test=51.0 0.000 -0.000000",
    ] {
        prints(&with(edits), WHOLE_REPORT);
    }
}

/// SCOPE 9.1: l is 2.000 and c is 1.000 where their lines are missing, and the report says so.
fn without_l_and_c() {
    // SCOPE 12.1, case 8: DL = 481743
    let report = WHOLE_REPORT.replace("l=1.000", "l=2.000");
    prints(&without(3, 4), &report.replace("0.9189", "0.4594"));
    // SCOPE 12.1, cases 9 and 10: c counts as 1. Where it is 1.25 lighter besides, l takes half of
    // that, but not under CIELAB
    for (edits, figures) in [
        ("test=50 3 4", "DE=7.8370\nDL=0.0000\nDC=withheld"),
        (
            "formula=CIE94|test=51.25 3 4",
            "DE=5.0389\nDL=0.6250\nDC=5.0000",
        ),
        (
            "formula=CIELAB|test=51.25 3 4",
            "DE=5.1539\nDL=1.2500\nDC=5.0000",
        ),
    ] {
        let written = with(&format!("{edits}|l=2.000|c=1.000"));
        let lines: Vec<_> = written.split_inclusive(|&byte| byte == b'\n').collect();
        let report = String::from_utf8(printed(&written)).expect("a text");
        let factors_and_figures = format!("\nl=2.000\nc=1.000\n{figures}\n");
        assert!(report.contains(&factors_and_figures), "{edits}: {report}");
        prints(&[&lines[..2], &lines[4..]].concat().concat(), &report);
    }
}

fn verdicts_and_withheld() {
    // SCOPE 12.1, case 13
    for (tolerance, verdict) in [("0.916", "fail"), ("0.920", "near"), ("0.921", "pass")] {
        let report = WHOLE_REPORT.replace("pass", verdict);
        prints(&with(&format!("tol={tolerance}")), &report);
    }
    // SCOPE 6.4: DE is 1.125 exactly, and both ends of what is near count
    for (tolerance, verdict) in [("1.122", "fail"), ("1.123", "near"), ("1.127", "near")] {
        let edits = format!("formula=CIELAB|tol={tolerance}|test=51.125 0 0");
        assert!(ends_with(&with(&edits), &format!("verdict={verdict}\n")));
    }
    withheld_of_either();
}

/// SCOPE 7.3 and 10.4: a² + b² of one, of the other or of both is at most 16, or hardly more.
fn withheld_of_either() {
    for (reference, test, hue, withheld) in [
        ("0 -4", "0 -4", "equal", 4),
        ("0 -4", "0 -9", "equal", 4),
        ("0 -9", "0 -4", "equal", 4),
        ("9 0", "0 0", "equal", 4),
        ("0 -9", "0 -4.000001", "equal", 0),
        ("0 -4.000001", "0 -9", "equal", 0),
        ("4 0.001", "4 0.001", "equal", 0),
        ("9 0", "4 0.001", "yellower(greener)", 0),
    ] {
        for (formula, withheld) in [("CMC", withheld), ("CIE94", 0), ("CIELAB", 0)] {
            let edits = format!("formula={formula}|ref=50 {reference}|test=50 {test}");
            let report = String::from_utf8(printed(&with(&edits))).expect("a text");
            let hue = if withheld > 0 { "withheld" } else { hue };
            assert!(report.contains(&format!("\nhue={hue}\n")), "{edits}");
            assert_eq!(report.matches("=withheld\n").count(), withheld, "{edits}");
        }
    }
}

fn whole_reports() {
    // SCOPE 12.1, case 10; l and c are printed as given under CIELAB too, and nothing is withheld
    prints(
        &with("formula=CIELAB|l=02.5|c=10|test=50 3 4"),
        "formula=CIELAB\nwhite=D65/10\nl=2.500\nc=10.000\nDE=5.0000\nDL=0.0000\nDC=5.0000\n\
         DH=0.0000\nlightness=equal\nchroma=more\nhue=equal\nverdict=fail\n",
    );
    // SCOPE 12.1, case 12: plus, so anticlockwise from between redder and yellower
    prints(
        &with("formula=CIELAB|white=C/2|ref=50 3 4|test=50 -3 -4"),
        "formula=CIELAB\nwhite=C/2\nl=1.000\nc=1.000\nDE=10.0000\nDL=0.0000\nDC=0.0000\n\
         DH=10.0000\nlightness=equal\nchroma=equal\nhue=yellower(greener)\nverdict=fail\n",
    );
    // SCOPE 12.1, cases 1 and 2: from the white to black
    prints(
        &with("formula=CIE94|space=XYZ|ref=94.811 100 107.304|test=0 -0 000"),
        "formula=CIE94\nwhite=D65/10\nl=1.000\nc=1.000\nDE=100.0000\nDL=-100.0000\nDC=0.0000\n\
         DH=0.0000\nlightness=darker\nchroma=equal\nhue=equal\nverdict=fail\n",
    );
}

/// 104.8576 units are 0.0001, and 52.4288 are half of it.
fn shown_figures() {
    for (units, text) in [
        (0, "0.0000"),
        (52, "0.0000"),
        (-52, "0.0000"),
        (53, "0.0001"),
        (-53, "-0.0001"),
        (157, "0.0001"),
        (158, "0.0002"),
        // 1/32 is a tie, and so is each odd multiple of it
        (32_767, "0.0312"),
        (32_768, "0.0313"),
        (-32_768, "-0.0313"),
        (3 * 32_768, "0.0938"),
        (5 * -32_768, "-0.1563"),
        // a carry goes through, and can add a digit
        (1_048_523, "0.9999"),
        (1_048_524, "1.0000"),
        (10_485_707, "9.9999"),
        (10_485_708, "10.0000"),
        (-10_485_708, "-10.0000"),
        (104_857_547, "99.9999"),
        (104_857_548, "100.0000"),
        (-12 << 20, "-12.0000"),
    ] {
        assert_eq!(figure(units), text);
    }
    no_figure_is_nearer();
}

/// Counted in units over 10,000, a last digit is 2^20 of them: what is shown is at most half as far
/// from the figure, and farther from zero if it is just that far. 2^16 units on, the last digits come
/// again.
fn no_figure_is_nearer() {
    for units in 0..=1_i128 << 16 {
        let digits: i128 = figure(units).replace('.', "").parse().expect("digits");
        let beyond = (digits << 20) - units * 10_000;
        assert!(-(1 << 19) < beyond && beyond <= 1 << 19, "{units}");
        let minus = if digits > 0 { "-" } else { "" };
        assert_eq!(figure(-units), format!("{minus}{}", figure(units)));
    }
}

/// SCOPE 10.2, with a report of twelve bytes: 10 is the last in the order.
fn rooms() {
    let report = Ok(vec![0; 12]);
    for (number, length, column) in [
        (0, 12, 0),
        (10, 11, 0),
        (0, 20, 8),
        (10, 20, 9),
        (10, 20, 20),
        (10, 20, 21),
        (10, 20, u64::MAX),
    ] {
        assert_eq!(answer(&report, length, column), number);
        assert_eq!(answer(&Err(8), length, column), 8);
    }
}
