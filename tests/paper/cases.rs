//! The sheet cases of SCOPE 12.1, and document 002's example (SCOPE 12.2).

use super::cmc::{second_form, sl};
use super::conversion::{lightness, place_xyz, Colour, WHITES};
use super::names::{hue_name, HueName};
use super::numbers::{nearest, ONE};
use super::readings::{millionths, GRID_ONE};
use super::settings::Formula;
use super::sheet::{sheet, verdict, Sheet, Verdict, PLACES};

pub fn check() {
    conversion_cases();
    semi_axis_cases();
    difference_cases();
    document_002();
}

/// In whole numbers of one.
fn lab(l: i64, a: i64, b: i64) -> Colour {
    [l, a, b].map(|value| value * GRID_ONE)
}

/// With c = 1.
fn cmc(l: i128, reference: Colour, test: Colour) -> Sheet {
    sheet(PLACES, Formula::Cmc, [l, 1_000], reference, test)
}

/// With l = c = 1.
fn cielab(reference: Colour, test: Colour) -> Sheet {
    sheet(PLACES, Formula::Cielab, [1_000; 2], reference, test)
}

/// Cases 1 to 3.
fn conversion_cases() {
    let white = WHITES[0].map(millionths);
    assert_eq!(place_xyz(1, white), Ok([104_857_600, 0, 0]));
    assert_eq!(place_xyz(1, [0; 3]), Ok([0, 0, 0]));
    assert_eq!(lightness(885_600, 100_000_000), 8_388_214);
}

/// Cases 4 to 6, and 11.
fn semi_axis_cases() {
    assert_eq!(sl(PLACES, lab(50, 0, 0)), 1_141_179);
    assert_eq!(sl(PLACES, lab(15, 0, 0)), 535_822);
    assert_eq!(sl(PLACES, lab(16, 0, 0)), 536_062);
    assert!(second_form(lab(0, 100, -27)));
    assert!(!second_form(lab(0, 100, -26)));
}

/// Cases 7 to 10, 12 and 13.
fn difference_cases() {
    let lighter = cmc(1_000, lab(50, 0, 0), lab(51, 0, 0));
    assert_eq!((lighter.dl, lighter.de), (963_487, 963_487));
    assert_eq!(cmc(2_000, lab(50, 0, 0), lab(51, 0, 0)).dl, 481_743);

    let stronger = cmc(1_000, lab(50, 0, 0), lab(50, 3, 4));
    assert_eq!((stronger.dc, stronger.de), (8_217_686, 8_217_686));
    assert_eq!(stronger.dh, 0);
    assert_eq!(cielab(lab(50, 0, 0), lab(50, 3, 4)).de, 5_242_880);

    let opposite = cmc(1_000, lab(50, 3, 4), lab(50, -3, -4));
    assert_eq!((opposite.delta_c, opposite.delta_h), (0, 10_485_760));

    let verdicts = [916, 920, 921].map(|tolerance| verdict(PLACES, lighter.de, tolerance));
    assert_eq!(verdicts, [Verdict::Fail, Verdict::Near, Verdict::Pass]);
}

/// 1.81, minus, greener(yellower).
fn document_002() {
    let hundredths = |count: i64| nearest(count.unsigned_abs() as u128 * ONE, 100) as i64;
    let blue = [hundredths(5368), -hundredths(920), -hundredths(3656)];
    let trial = [hundredths(5490), -hundredths(1002), -hundredths(3550)];
    let example = cielab(blue, trial);
    assert_eq!(nearest(100 * example.de as u128, ONE), 181);
    assert!(example.dh < 0);
    let name = hue_name(blue, trial);
    assert_eq!(name, Some([HueName::Greener, HueName::Yellower]));
}
