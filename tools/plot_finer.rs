//! Draws docs/finer.svg: how far DE moves between 20 and 40 binary places, against DE, with the allowed and the proved
//! lines and the pairs that moved most of all that were ever met. The sheet is the independent one of tests/paper.
//!
//! Usage: plot_finer >docs/finer.svg    (tools/plot_finer builds it and runs it)

#[path = "../tests/shared/mod.rs"]
mod shared;

use shared::paper::conversion::Colour;
use shared::paper::readings::{GRID_ONE, LIGHTEST, SIDE};
use shared::paper::settings::Formula;
use shared::paper::sheet::{sheet, PLACES};
use shared::random::Random;

const PAIRS: usize = 150_000;
const FINE: u32 = 40;

// The picture: both axes logarithmic, in cells of two points.
const LEFT: f64 = 70.0;
const TOP: f64 = 50.0;
const WIDE: f64 = 640.0;
const HIGH: f64 = 440.0;
const CELL: f64 = 2.0;
const ACROSS: usize = (WIDE / CELL) as usize;
const DOWN: usize = (HIGH / CELL) as usize;
/// DE from 0.001 to 2000, and movements from 0.001 to 300,000 units of 2^-20: more than is proved at a DE of 2000.
const X: [f64; 2] = [0.001, 2000.0];
const Y: [f64; 2] = [0.001, 300_000.0];

struct Kind {
    formula: Formula,
    name: &'static str,
    colour: &'static str,
    /// Of all pairs up to DE = 10 that were ever met under this formula, the one that moves most: its l and c in
    /// thousandths, and its colours. It stands in the theorem `sharp`, in crates/finer/specs/Finer/Sharp.antt.
    most: ([i128; 2], [Colour; 2]),
}

const KINDS: [Kind; 3] = [
    Kind {
        formula: Formula::Cmc,
        name: "CMC",
        colour: "#335",
        most: ([7208, 9963], [[53482592, 7319696, 10554335], [52956196, 29601456, 26698326]]),
    },
    Kind {
        formula: Formula::Cie94,
        name: "CIE94",
        colour: "#c70",
        most: ([9327, 10000], [[11529445, -44, 0], [8482314, 42824352, 95463153]]),
    },
    Kind {
        formula: Formula::Cielab,
        name: "CIELAB",
        colour: "#09c",
        most: ([1000, 1000], [[24130486, -113307165, 1093524], [24113648, -113107240, -6139723]]),
    },
];

fn within(value: f64, [from, to]: [f64; 2]) -> bool {
    from < value && value < to
}

fn along(value: f64, [from, to]: [f64; 2]) -> f64 {
    (value / from).ln() / (to / from).ln()
}

fn x(de: f64) -> f64 {
    LEFT + WIDE * along(de, X)
}

fn y(units: f64) -> f64 {
    TOP + HIGH * (1.0 - along(units, Y))
}

fn coordinate(random: &mut Random, low: i64, high: i64) -> i64 {
    low + random.below((high - low + 1) as u64) as i64
}

/// A reference anywhere on the grid, nearly neutral, or weak, where the semi-axes are small.
fn reference(random: &mut Random) -> Colour {
    let side = match random.below(3) {
        0 => SIDE,
        1 => GRID_ONE / 4,
        _ => 8 * GRID_ONE,
    };
    [coordinate(random, 0, LIGHTEST), coordinate(random, -side, side), coordinate(random, -side, side)]
}

/// A test specimen at most some distance away, from a few units to the whole grid.
fn specimen(random: &mut Random, reference: Colour) -> Colour {
    let reach = 1i64 << (4 + random.below(25));
    let near = |random: &mut Random, centre: i64, low: i64, high: i64| {
        coordinate(random, (centre - reach).max(low), (centre + reach).min(high))
    };
    [
        near(random, reference[0], 0, LIGHTEST),
        near(random, reference[1], -SIDE, SIDE),
        near(random, reference[2], -SIDE, SIDE),
    ]
}

/// DE, and how far it moves, in units of 2^-20.
fn moved(formula: Formula, weights: [i128; 2], pair: [Colour; 2]) -> (f64, f64) {
    let coarse = sheet(PLACES, formula, weights, pair[0], pair[1]).de;
    let fine = sheet(FINE, formula, weights, pair[0], pair[1]).de;
    let scale = 1i128 << (FINE - PLACES);
    let one = GRID_ONE as f64;
    (coarse as f64 / one, (fine - coarse * scale).abs() as f64 / scale as f64)
}

fn text(at: [f64; 2], anchor: &str, words: &str) {
    println!("<text x=\"{:.0}\" y=\"{:.0}\" text-anchor=\"{}\">{}</text>", at[0], at[1], anchor, words);
}

/// White under words, so that no line of the grid goes through them, and its border.
fn blank([left, top]: [f64; 2], [wide, high]: [f64; 2], border: &str) {
    let place = format!("x=\"{left}\" y=\"{top:.0}\" width=\"{wide}\" height=\"{high}\"");
    println!("<rect {place} fill=\"#fff\" stroke=\"{border}\"/>");
}

fn frame() {
    for value in [0.001, 0.01, 0.1, 1.0, 10.0, 100.0, 1000.0, 10_000.0, 100_000.0] {
        let name = &value.to_string();
        if value < X[1] {
            println!("<path d=\"M{:.1} {}v{}\" stroke=\"#ddd\"/>", x(value), TOP, HIGH);
            text([x(value), TOP + HIGH + 18.0], "middle", name);
        }
        println!("<path d=\"M{} {:.1}h{}\" stroke=\"#ddd\"/>", LEFT, y(value), WIDE);
        text([LEFT - 8.0, y(value) + 4.0], "end", name);
    }
    println!("<rect x=\"{LEFT}\" y=\"{TOP}\" width=\"{WIDE}\" height=\"{HIGH}\" fill=\"none\" stroke=\"#444\"/>");
    text([LEFT + WIDE / 2.0, TOP + HIGH + 40.0], "middle", "DE at 20 places");
    text([LEFT, TOP - 14.0], "start", "|DE at 40 places - DE at 20 places|, in units of 2^-20 (0.00000095)");
}

/// 0.002, up to DE = 10, where it ends with a stroke.
fn allowed() {
    let (end, high) = (x(10.0), y(2097.152));
    blank([LEFT + 6.0, high - 20.0], [330.0, 17.0], "none");
    println!("<path d=\"M{LEFT:.1} {high:.1}H{end:.1}m0 -5v10\" stroke=\"#b00\" stroke-width=\"1.5\" fill=\"none\"/>");
    text([LEFT + 8.0, high - 7.0], "start", "allowed, up to DE = 10: 0.002 (2097.15 units)");
}

/// DE / 10000 and 579.06 units, at any DE.
fn proved() {
    let mut path = String::new();
    for step in 0..=200 {
        let de = X[0] * (X[1] / X[0]).powf(f64::from(step) / 200.0);
        let units = de * GRID_ONE as f64 / 10_000.0 + 579.0579;
        path.push_str(&format!("{}{:.1} {:.1}", if step == 0 { "M" } else { "L" }, x(de), y(units)));
    }
    let low = y(579.0579);
    blank([LEFT + 6.0, low + 4.0], [310.0, 17.0], "none");
    println!("<path d=\"{}\" stroke=\"#060\" stroke-width=\"1.5\" fill=\"none\"/>", path);
    text([LEFT + 8.0, low + 16.0], "start", "proved, at any DE: DE/10000 + 579.06 units");
}

/// The cells that were hit, each run of them in a row as one bar.
fn runs(cells: &[bool]) -> String {
    let mut path = String::new();
    for (row, line) in cells.chunks(ACROSS).enumerate() {
        let mut column = 0;
        while column < ACROSS {
            let length = line[column..].iter().take_while(|hit| **hit).count();
            if length > 0 {
                let at = [LEFT + CELL * column as f64, TOP + CELL * row as f64];
                path.push_str(&format!("M{:.0} {:.0}h{}v2h-{}z", at[0], at[1], 2 * length, 2 * length));
            }
            column += length + 1;
        }
    }
    path
}

/// The cells that pairs of this formula hit, and the largest movement up to DE = 10. A pair off the axes counts for the
/// second alone.
fn hits(random: &mut Random, formula: Formula) -> (Vec<bool>, f64) {
    let mut cells = vec![false; ACROSS * DOWN];
    let mut largest: f64 = 0.0;
    for _ in 0..PAIRS / KINDS.len() {
        let weights = [0; 2].map(|_| i128::from(500 + random.below(9_501)));
        let first = reference(random);
        let second = specimen(random, first);
        let (de, units) = moved(formula, weights, [first, second]);
        if de <= 10.0 {
            largest = largest.max(units);
        }
        if within(de, X) && within(units, Y) {
            let column = ((x(de) - LEFT) / CELL) as usize;
            let row = ((y(units) - TOP) / CELL) as usize;
            cells[row * ACROSS + column] = true;
        }
    }
    (cells, largest)
}

/// Draws a ring at the pair that moves most of all that were ever met, and answers by how much.
fn ring(kind: &Kind) -> f64 {
    let (de, units) = moved(kind.formula, kind.most.0, kind.most.1);
    let circle = format!("<circle cx=\"{:.1}\" cy=\"{:.1}\" r=\"5\" fill=\"none\"", x(de), y(units));
    println!("{circle} stroke=\"#fff\" stroke-width=\"4\"/>\n{circle} stroke=\"{}\" stroke-width=\"2\"/>", kind.colour);
    units
}

/// The largest movements of each kind up to DE = 10: of this sample, and of all that were ever met.
fn table(largest: [[f64; 2]; 3]) {
    let (left, top) = (LEFT + 18.0, TOP + 6.0);
    let columns = [left + 285.0, left + 410.0];
    blank([left - 10.0, top - 2.0], [430.0, 70.0], "#aaa");
    text([left, top + 13.0], "start", "largest up to DE = 10");
    text([columns[0], top + 13.0], "end", "in this sample");
    text([columns[1], top + 13.0], "end", "ever met (ring)");
    for (place, (kind, [sample, ever])) in KINDS.iter().zip(largest).enumerate() {
        let line = top + 30.0 + 16.0 * place as f64;
        text([left, line], "start", &format!("<tspan fill=\"{}\">&#9632;</tspan> {}", kind.colour, kind.name));
        text([columns[0], line], "end", &format!("{sample:.1}"));
        text([columns[1], line], "end", &format!("{ever:.2}"));
    }
}

fn main() {
    let mut random = Random(20);
    println!(
        "<svg xmlns=\"http://www.w3.org/2000/svg\" width=\"760\" height=\"550\" font-family=\"sans-serif\" \
         font-size=\"12\">"
    );
    println!("<rect width=\"760\" height=\"550\" fill=\"#fff\"/>");
    frame();
    let mut largest = [[0.0; 2]; 3];
    for (kind, [sample, _]) in KINDS.iter().zip(&mut largest) {
        let (cells, most) = hits(&mut random, kind.formula);
        println!("<path d=\"{}\" fill=\"{}\" fill-opacity=\"0.45\"/>", runs(&cells), kind.colour);
        *sample = most;
    }
    allowed();
    proved();
    for (kind, [_, ever]) in KINDS.iter().zip(&mut largest) {
        *ever = ring(kind);
    }
    table(largest);
    println!("</svg>");
}
