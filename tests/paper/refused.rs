//! Tickets that are refused: wrong lines, early and late ends, numbers out of range in their order.

use super::texts::{prints, text_of, with, without, WHOLE_CASE};
use super::ticket::LONGEST_TICKET;

pub fn check() {
    wrong_lines();
    early_and_late_ends();
    refusals_in_order();
}

/// The whole case with one line in the place of another, counted from 1.
fn with_line(number: usize, line: &str) -> Vec<u8> {
    let mut lines = WHOLE_CASE;
    lines[number - 1] = line;
    text_of(&lines)
}

fn wrong_at(text: &[u8], line: usize) {
    prints(text, &format!("refused=7 line={line}\n"));
}

fn wrong_lines() {
    let wrong = [
        "formula=Cmc|Formula=CMC|formula=3|formula=CMC | formula=CMC|formula=CMC\r|formula =CMC|CMC\
         |formula|formula=||formula=CIE94\0",
        "white=D65|white=d65/10|white=D65/100|white=C/|white=1|white=C/2/",
        "l=|l=.5|l=1.|l=001|l=1.0000|l=-1|l=+1|l=1e0|l=1,0|l= 1|l=1.0.0|L=1|ll=1|tol",
        "c=100|c=1 |c=1.2345|c|l=1|C=1|c=1\r|c=\u{661}",
        "tol=1.0000|tol=010|tolerance=1|tol=\t1|tol=1\0|tol=-0|tol==1",
        "space=Lab|space=LABS|space=xyz|space=|space=XYZ ",
        "ref=50 0|ref=50 0 0 0|ref=50  0 0|ref=50 0 0 |ref= 50 0 0|ref=50\t0 0|ref=|ref=0050 0 0\
         |ref=50.0000000 0 0|ref=50. 0 0|ref=.5 0 0|ref=50 \u{661} 0|ref=50 --1 0|ref=50 +1 0\
         |ref=50 - 0|ref=50 -.5 0|ref=50 nan 0|ref=50 1e1 0",
        "test=51 0 0\r|test=51 0 0\0|ref=51 0 0|test=51 0 0 test=51 0 0",
    ];
    for (number, lines) in (1..).zip(wrong) {
        for line in lines.split('|') {
            wrong_at(&with_line(number, line), number);
        }
    }
    // l alone, c alone, each in the other's place; tol= at line 3 says that both are missing
    wrong_at(&without(4, 4), 4);
    wrong_at(&without(3, 3), 3);
    wrong_at(&with_line(3, "c=1.000"), 3);
    wrong_at(&with_line(3, "tol=1.000"), 4);
    wrong_at(&with_line(3, "tol=x"), 3);
    // the first of several, and before every range
    wrong_at(&with("test=|tol=x|white=E/2"), 2);
    wrong_at(&with("l=0|tol=0|ref=999 0 0|test=1"), 8);
}

fn early_and_late_ends() {
    let whole = text_of(&WHOLE_CASE);
    for end in 0..whole.len() {
        let lines = whole[..end].iter().filter(|&&byte| byte == b'\n').count();
        wrong_at(&whole[..end], lines + 1);
    }
    for more in ["\n", " ", "test=51 0 0\n", "\r\n", "\0"] {
        wrong_at(&[&whole, more.as_bytes()].concat(), 9);
        wrong_at(&[&without(3, 4), more.as_bytes()].concat(), 7);
    }
    let long = [whole, vec![b'\n'; LONGEST_TICKET]].concat();
    wrong_at(&long[..4_096], 9);
    wrong_at(&long[..4_097], 0);
    wrong_at(&[b'x'; 4_096], 1);
    wrong_at(&[b'x'; 4_097], 0);
}

fn refusals_in_order() {
    for (number, edits) in [
        (3, "l=0.499"),
        (3, "c=10.001"),
        (3, "formula=CIELAB|l=10.001|tol=0"),
        (3, "c=99.999|tol=0|ref=999 0 0"),
        (4, "tol=0.099"),
        (4, "tol=10.001|ref=999 0 0"),
        (4, "tol=0.0|space=XYZ|ref=94.811 0 0"),
        (6, "ref=999 0 0"),
        (6, "ref=120.000001 0 0"),
        (6, "ref=-0.000001 0 0"),
        (6, "ref=50 -256.000001 0"),
        (6, "test=50 0 256.000001"),
        (6, "space=XYZ|ref=50 50 50|test=0 0 150.000001"),
        // X of the white alone: a* is 500(1 - 16/116), far beyond 256
        (8, "space=XYZ|ref=94.811 0 0|test=50 50 50"),
        (8, "space=XYZ|ref=50 50 50|test=94.811 0 0"),
        (8, "space=XYZ|ref=94.811 0 0|test=0 0 151"),
        (6, "space=XYZ|ref=94.811 0 151|test=94.811 0 0"),
        (6, "space=XYZ|ref=-1 0 0|test=94.811 0 0"),
    ] {
        prints(&with(edits), &format!("refused={number} line=0\n"));
    }
}
