//! The report (SCOPE 10).

use super::conversion::Colour;
use super::names::{self, ChromaName, HueName, LightnessName};
use super::numbers::{nearest, ONE};
use super::refusals::{Answer, WRONG_LENGTH};
use super::sheet::{self, Verdict, PLACES};
use super::standard::Standard;
use super::ticket::{FORMULAS, WHITES};

/// The word beside this value.
fn name<T: Copy + PartialEq>(table: &[(T, &'static str)], value: T) -> &'static str {
    let (_, name) = table
        .iter()
        .find(|(one, _)| *one == value)
        .expect("each has a name");
    name
}

/// SCOPE 10.3: the nearest four decimals, a tie away from zero, with a minus only if a digit is shown
/// that is not zero.
pub fn figure(units: i128) -> String {
    let shown = nearest(units.unsigned_abs() * 10_000, ONE);
    let minus = if units < 0 && shown > 0 { "-" } else { "" };
    format!("{minus}{}.{:04}", shown / 10_000, shown % 10_000)
}

/// SCOPE 10.3: l and c have three decimals, as they were given.
pub fn factor(thousandths: u64) -> String {
    format!("{}.{:03}", thousandths / 1_000, thousandths % 1_000)
}

/// SCOPE 7.1 and 7.2, each name as it is written there.
pub const LIGHTNESS_NAMES: [(LightnessName, &str); 3] = [
    (LightnessName::Lighter, "lighter"),
    (LightnessName::Darker, "darker"),
    (LightnessName::Equal, "equal"),
];

pub const CHROMA_NAMES: [(ChromaName, &str); 3] = [
    (ChromaName::More, "more"),
    (ChromaName::Less, "less"),
    (ChromaName::Equal, "equal"),
];

pub const HUE_NAMES: [(HueName, &str); 4] = [
    (HueName::Redder, "redder"),
    (HueName::Yellower, "yellower"),
    (HueName::Greener, "greener"),
    (HueName::Bluer, "bluer"),
];

/// SCOPE 6.4.
pub const VERDICTS: [(Verdict, &str); 3] = [
    (Verdict::Near, "near"),
    (Verdict::Pass, "pass"),
    (Verdict::Fail, "fail"),
];

/// SCOPE 10.1: a name and its bracket, as in yellower(redder).
fn hue(names: Option<[HueName; 2]>) -> String {
    match names {
        None => "equal".to_string(),
        Some([first, next]) => format!("{}({})", name(&HUE_NAMES, first), name(&HUE_NAMES, next)),
    }
}

/// The twelve lines, in the order of SCOPE 10.1.
pub fn report(standard: &Standard, test: Colour) -> Vec<u8> {
    let sheet = standard.sheet(test);
    let verdict = sheet::verdict(PLACES, sheet.de, standard.tolerance.into());
    let unless_withheld = |text: String| {
        if standard.withholds(test) {
            "withheld".to_string()
        } else {
            text
        }
    };
    let chroma = name(&CHROMA_NAMES, names::chroma_name(&sheet)).to_string();
    let lines = [
        ("formula", name(&FORMULAS, standard.formula).to_string()),
        ("white", name(&WHITES, standard.white).to_string()),
        ("l", factor(standard.l)),
        ("c", factor(standard.c)),
        ("DE", figure(sheet.de)),
        ("DL", figure(sheet.dl)),
        ("DC", unless_withheld(figure(sheet.dc))),
        ("DH", unless_withheld(figure(sheet.dh))),
        (
            "lightness",
            name(&LIGHTNESS_NAMES, names::lightness_name(&sheet)).to_string(),
        ),
        ("chroma", unless_withheld(chroma)),
        (
            "hue",
            unless_withheld(hue(names::hue_name(standard.colour, test))),
        ),
        ("verdict", name(&VERDICTS, verdict).to_string()),
    ];
    let lines = lines.map(|(key, value)| format!("{key}={value}\n"));
    lines.concat().into_bytes()
}

/// SCOPE 10.2: room is what lies from that column on; a column past the end has none.
pub fn room(length: u64, column: u64) -> u64 {
    length.saturating_sub(column)
}

/// What a C call answers that would write this report, or is refused with this number: 10 is the
/// last in the order (SCOPE 8.2).
pub fn answer(judged: &Answer<Vec<u8>>, length: u64, column: u64) -> u32 {
    match judged {
        Err(number) => *number,
        Ok(report) if room(length, column) < report.len() as u64 => WRONG_LENGTH,
        Ok(_) => 0,
    }
}
