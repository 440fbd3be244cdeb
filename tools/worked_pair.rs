//! Prints the tables of docs/MANUAL.md, part 3: a CMC pair with every figure of the step sheet; X, Y, Z to L*, a*, b*;
//! a delivery, its mean and each cone against it. The figures are those of the independent sheet of tests/paper.
//!
//! Usage: tools/worked_pair    (which builds it)

#[path = "../tests/paper/mod.rs"]
mod paper;

use paper::conversion::{above_cut, f, grid_colour, Colour, WHITES};
use paper::delivery::Sort;
use paper::readings::GRID_ONE;
use paper::settings::Formula;
use paper::sheet::{semi_axes, sheet, Sheet, PLACES};
use paper::standard::Standard;
use paper::ticket::Space;
use paper::{cmc, report};

/// In quarters of one: exact in decimals and on the grid.
const REFERENCE: [i64; 3] = [210, 41, -28];
const TEST: [i64; 3] = [203, 44, -29];
/// In thousandths.
const L: u64 = 2_000;
const C: u64 = 1_000;
const TOLERANCE: u64 = 1_000;

/// Document 000, Table 2, the reference of pair 9, in millionths: X and Y lie below the cut, Z above it. White D65/10.
const XYZ: [u128; 3] = [704_000, 750_000, 972_000];

/// L*, a* and b* of the four cones of part 2. The sum of their b* in units is even, but no multiple of 4: the mean is a
/// tie. The sums of L* and a* lie on either side of a multiple.
const CONES: [[f64; 4]; 3] = [[24.0, 24.4, 23.6, 24.8], [3.1, 2.7, 3.6, 3.0], [-18.2, -18.1, -18.8, -17.5]];

const ONE: i128 = GRID_ONE as i128;

/// Units of 2^-places to seven decimals, the nearest: these tell each unit of 2^-20 from the next.
fn rounded(units: i128, places: u32) -> String {
    let shown = (units.abs() * 20_000_000 + (1 << places)) >> (places + 1);
    let minus = if units < 0 { "-" } else { "" };
    format!("{minus}{}.{:07}", shown / 10_000_000, shown % 10_000_000)
}

/// The same for a number that ends sooner, with brackets around a minus.
fn exact(units: i128, places: u32) -> String {
    let text = rounded(units, places);
    let text = text.trim_end_matches('0').trim_end_matches('.');
    if units < 0 {
        format!("({text})")
    } else {
        text.to_string()
    }
}

/// One line of a table, in the unit 2^-places.
fn row(line: u32, name: &str, how: &str, units: i128, places: u32) {
    let unit = if places == PLACES { String::new() } else { format!(" of 2^-{places}") };
    println!("| {line} | {name} | {how} | {} | {units}{unit} |", rounded(units, places));
}

fn colour(quarters: [i64; 3]) -> Colour {
    quarters.map(|count| count * (GRID_ONE / 4))
}

/// A colour as whole units, and each of its coordinates as a decimal.
struct Shown {
    units: [i128; 3],
    text: [String; 3],
}

impl Shown {
    fn of(colour: Colour) -> Shown {
        let units = colour.map(i128::from);
        Shown { units, text: units.map(|coordinate| exact(coordinate, PLACES)) }
    }
}

fn pair() {
    let standard =
        Standard { formula: Formula::Cmc, white: 1, l: L, c: C, tolerance: TOLERANCE, colour: colour(REFERENCE) };
    let test = colour(TEST);
    let sheet = standard.sheet(test);
    let (r, t) = (Shown::of(standard.colour), Shown::of(test));
    println!("| line | quantity | how | as a decimal | in units |\n|---|---|---|---|---|");
    line_1(&sheet, &r, &t);
    line_2(&sheet, &r, &t);
    let l = &r.text[0];
    row(3, "SL", &format!("0.040975·{l} / (1 + 0.01765·{l})"), sheet.semi_axes.sl, PLACES);
    row(4, "SC", "0.0638·C / (1 + 0.0131·C) + 0.638, C of R", sheet.semi_axes.sc, PLACES);
    lines_5_to_7(&sheet, standard.colour, &r);
    row(8, "DL", &format!("ΔL / ({}·SL)", report::factor(L)), sheet.dl, PLACES);
    row(8, "DC", &format!("ΔC / ({}·SC)", report::factor(C)), sheet.dc, PLACES);
    row(8, "DH", "ΔH / SH", sheet.dh, PLACES);
    row(8, "DE", "√(DL² + DC² + DH²)", sheet.de, PLACES);

    let off = sheet.de - i128::from(TOLERANCE) * ONE / 1_000;
    println!("\nDE less the tolerance: {}, {off} units", rounded(off, PLACES));
    println!("BS 6923's formula in floating point: DE = {:.7}\n", in_floating_point());
    print!("{}", String::from_utf8(report::report(&standard, test)).expect("a report is ASCII"));
}

fn line_1(sheet: &Sheet, r: &Shown, t: &Shown) {
    let ([lr, ar, br], [lt, at, bt]) = (r.units, t.units);
    let how = format!("√({}² + {}²) = √{}", r.text[1], r.text[2], exact(ar * ar + br * br, 40));
    row(1, "C of R", &how, sheet.reference_chroma, PLACES);
    let how = format!("√({}² + {}²) = √{}", t.text[1], t.text[2], exact(at * at + bt * bt, 40));
    row(1, "C of T", &how, sheet.test_chroma, PLACES);
    let (da, db) = (at - ar, bt - br);
    let how = format!("{}² + {}², exact", exact(da, PLACES), exact(db, PLACES));
    row(1, "D²", &how, da * da + db * db, 40);
    assert_eq!(sheet.delta_l, lt - lr);
    row(1, "ΔL", &format!("{} - {}", t.text[0], r.text[0]), sheet.delta_l, PLACES);
    row(1, "ΔC", "C of T - C of R", sheet.delta_c, PLACES);
}

fn line_2(sheet: &Sheet, r: &Shown, t: &Shown) {
    let ([_, ar, br], [_, at, bt]) = (r.units, t.units);
    let ([_, x_ar, x_br], [_, x_at, x_bt]) = (&r.text, &t.text);
    let cross = ar * bt - at * br;
    row(2, "cross", &format!("{x_ar}·{x_bt} - {x_at}·{x_br}, exact"), cross, 40);
    row(2, "dot", &format!("{x_ar}·{x_at} + {x_br}·{x_bt}, exact"), ar * at + br * bt, 40);
    let sign = if cross < 0 { "minus: the cross is negative" } else { "plus: the cross is not negative" };
    row(2, "ΔH", &format!("√(D² - ΔC²), {sign}"), sheet.delta_h, PLACES);
}

fn lines_5_to_7(sheet: &Sheet, reference: Colour, r: &Shown) {
    let [_, a, b] = &r.text;
    let hue = cmc::hue(PLACES, reference).expect("the reference is not neutral");
    row(5, "Q", &format!("{a}² + {b}²"), hue.q, PLACES - 7);
    row(5, "W", "√(Q² + 1900)", hue.w, PLACES - 7);
    row(5, "F", "Q / W", hue.f, PLACES);
    let factors = [("-0.27563736", "0.96126170"), ("-0.25881905", "0.96592583")];
    for ((a_part, b_part), sum) in factors.into_iter().zip(cmc::form_sums(reference)) {
        let value = sum as f64 / 1e8 / ONE as f64;
        println!("| 6 | form | {a_part}·{a} - {b_part}·{b}, exact | {value:.10} | |");
    }
    let how = if cmc::second_form(reference) {
        format!("second: 0.56 + 0.2·∣0.97814760·{a} + 0.20791169·{b}∣ / C")
    } else {
        format!("first: 0.36 + 0.4·∣0.81915204·{a} - 0.57357644·{b}∣ / C")
    };
    row(6, "T", &how, hue.t, PLACES);
    row(7, "P", "F·T", hue.p, PLACES);
    row(7, "G", "P + 1 - F", hue.g, PLACES);
    row(7, "SH", "SC·G", sheet.semi_axes.sh, PLACES);
}

/// As BS 6923 writes it, with its angle, and nothing rounded down.
fn in_floating_point() -> f64 {
    let [reference, test] = [REFERENCE, TEST].map(|quarters| quarters.map(|count| count as f64 / 4.0));
    let [l, c] = [L, C].map(|thousandths| thousandths as f64 / 1e3);
    let chroma = reference[1].hypot(reference[2]);
    let delta_c = test[1].hypot(test[2]) - chroma;
    let delta_h_square = (test[1] - reference[1]).powi(2) + (test[2] - reference[2]).powi(2) - delta_c.powi(2);
    let hue = reference[2].atan2(reference[1]).to_degrees().rem_euclid(360.0);
    let t = if hue > 164.0 && hue < 345.0 {
        0.56 + (0.2 * (168.0 + hue).to_radians().cos()).abs()
    } else {
        0.36 + (0.4 * (35.0 + hue).to_radians().cos()).abs()
    };
    let sl = 0.040975 * reference[0] / (1.0 + 0.01765 * reference[0]);
    let sc = 0.0638 * chroma / (1.0 + 0.0131 * chroma) + 0.638;
    let f = (chroma.powi(4) / (chroma.powi(4) + 1900.0)).sqrt();
    let sh = (f * t + 1.0 - f) * sc;
    let dl = (test[0] - reference[0]) / (l * sl);
    (dl.powi(2) + (delta_c / (c * sc)).powi(2) + delta_h_square / sh.powi(2)).sqrt()
}

fn conversion() {
    let white = WHITES[0];
    println!("\n| quantity | how | as a decimal | in units |\n|---|---|---|---|");
    for (place, name) in ["X", "Y", "Z"].into_iter().enumerate() {
        let [x, xn] = [XYZ[place], white[place]].map(|millionths| millionths as f64 / 1e6);
        let (above, how) = match above_cut(XYZ[place], white[place]) {
            true => ("above", "the cube root of q"),
            false => ("not above", "7.787·q + 16/116"),
        };
        println!("| q of {name} | {x} / {xn}, exact: {above} 0.008856 | {:.10} | |", x / xn);
        let f: i128 = f(XYZ[place], white[place]).into();
        println!("| f of {name} | {how} | {} | {f} |", rounded(f, PLACES));
    }
    let [l, a, b] = grid_colour(XYZ, white).expect("a* and b* are small");
    let l_how = if above_cut(XYZ[1], white[1]) { "116·(f of Y) - 16" } else { "903.3·(q of Y)" };
    let rows = [("L\\*", l_how, l), ("a\\*", "500·(f of X - f of Y)", a), ("b\\*", "200·(f of Y - f of Z)", b)];
    for (name, how, units) in rows {
        println!("| {name} | {how} | {} | {units} |", rounded(units.into(), PLACES));
    }
    print!("\nin bytes 8 to 19 of a station:");
    for byte in [l, a, b].into_iter().flat_map(|units| (units as i32).to_le_bytes()) {
        print!(" {byte:02x}");
    }
    println!();
}

fn delivery() {
    let readings = CONES.map(|of_cones| of_cones.map(f64::to_bits).to_vec());
    let sort = Sort { white: 1, l: L as u32, c: C as u32, space: Space::Lab, readings, results: vec![0; 4] };
    let figures = sort.sorted().expect("every cone is in range");
    let line = |name: &str, cells: [String; 3]| println!("| {name} | {} |", cells.join(" | "));
    println!("\n| in units | L\\* | a\\* | b\\* |\n|---|---|---|---|");
    for (cone, colour) in figures.colours.iter().enumerate() {
        line(&format!("cone {cone}"), colour.map(|units| units.to_string()));
    }
    let sums = [0, 1, 2].map(|place: usize| figures.colours.iter().map(|colour| colour[place]).sum::<i64>());
    line("sum", sums.map(|sum| sum.to_string()));
    line("a quarter of it", sums.map(|sum| (sum as f64 / 4.0).to_string()));
    line("mean", figures.mean.map(|units| units.to_string()));
    line("mean, as a decimal", figures.mean.map(|units| rounded(units.into(), PLACES)));

    let axes = semi_axes(PLACES, Formula::Cmc, figures.mean);
    println!("\nSL, SC, SH of the mean: {}, {}, {}\n", axes.sl, axes.sc, axes.sh);
    println!("| cone | ΔL | ΔC | ΔH | DL | DC | DH | DE | DE, as a decimal |\n|---|---|---|---|---|---|---|---|---|");
    for (cone, &colour) in figures.colours.iter().enumerate() {
        let s = sheet(PLACES, Formula::Cmc, [L.into(), C.into()], figures.mean, colour);
        let units = [s.delta_l, s.delta_c, s.delta_h, s.dl, s.dc, s.dh, s.de].map(|units| units.to_string());
        println!("| {cone} | {} | {} |", units.join(" | "), rounded(s.de, PLACES));
    }
    println!("\nthe farthest: {}", figures.farthest);
}

fn main() {
    paper::check();
    pair();
    conversion();
    delivery();
}
