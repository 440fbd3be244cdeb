//! Which of a pair are achromatic, one of them or both, and how near to the end (SCOPE 7.3).

use std::collections::BTreeMap;

use super::paper::conversion::Colour;
use super::paper::readings::GRID_ONE as ONE;
use super::paper::settings::Formula;

/// 4 in units, and 16 in their squares.
pub const FOUR: i64 = 4 * ONE;
const SIXTEEN: i64 = FOUR * FOUR;

/// How many reports have been asked for of each kind, under each formula.
#[derive(Default)]
pub struct Greys(BTreeMap<(u8, &'static str), u64>);

impl Greys {
    pub fn report(&mut self, formula: Formula, reference: Colour, test: Colour) {
        for (kind, is_one) in kinds(reference, test) {
            *self.0.entry((formula as u8, kind)).or_default() += u64::from(is_one);
        }
    }

    pub fn check(&self) {
        assert_eq!(self.0.len(), 27, "nine kinds under each formula");
        for (of, count) in &self.0 {
            assert!(*count >= 100, "only {count} reports: {of:?}");
        }
    }
}

/// An end shows in a report only where the other specimen is not achromatic.
fn kinds(reference: Colour, test: Colour) -> [(&'static str, bool); 9] {
    let [r, t] = [reference, test].map(|[_, a, b]| a * a + b * b);
    // C, rounded down, is 4 in the first of these, and a unit less in the second
    let just_above = SIXTEEN + 1..(FOUR + 1) * (FOUR + 1);
    let just_below = (FOUR - 1) * (FOUR - 1)..SIXTEEN;
    [
        ("reference alone", r <= SIXTEEN && t > SIXTEEN),
        ("test alone", t <= SIXTEEN && r > SIXTEEN),
        ("both", r <= SIXTEEN && t <= SIXTEEN),
        ("reference at 16", r == SIXTEEN && t > SIXTEEN),
        ("test at 16", t == SIXTEEN && r > SIXTEEN),
        ("reference below", just_below.contains(&r) && t > SIXTEEN),
        ("test below", just_below.contains(&t) && r > SIXTEEN),
        ("reference above", just_above.contains(&r) && t > SIXTEEN),
        ("test above", just_above.contains(&t) && r > SIXTEEN),
    ]
}
