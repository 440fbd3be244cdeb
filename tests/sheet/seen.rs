//! What has been tried.

use crate::aimed::beyond_near;
use crate::ends::LINES;
use crate::grey::Greys;
use crate::paper::conversion::Colour;
use crate::paper::readings::GRID_ONE as ONE;
use crate::paper::settings::Formula;
use crate::paper::sheet::{self, Sheet, PLACES};
use crate::paper::turn::turn;

/// How many pairs have been of a kind that a wrong sheet could get wrong and that chance alone
/// seldom gives.
#[derive(Default)]
pub struct Seen {
    kinds: Vec<(&'static str, u64)>,
    greys: Greys,
}

impl Seen {
    pub fn pair(&mut self, sheet: &Sheet, tolerance: u32, reference: Colour, test: Colour) {
        let kinds = kinds(sheet, tolerance, reference, test);
        if self.kinds.is_empty() {
            self.kinds = kinds.map(|(kind, _)| (kind, 0)).to_vec();
        }
        for (seen, (_, is_one)) in self.kinds.iter_mut().zip(kinds) {
            seen.1 += u64::from(is_one);
        }
        // replay.c asks for a report under each formula
        for formula in [Formula::Cielab, Formula::Cie94, Formula::Cmc] {
            self.greys.report(formula, reference, test);
        }
    }

    pub fn check(&self) {
        for (kind, count) in &self.kinds {
            assert!(*count >= 200, "only {count} pairs: {kind}");
        }
        self.greys.check();
    }
}

type Kinds = [(&'static str, bool); 21];

fn kinds(sheet: &Sheet, tolerance: u32, reference: Colour, test: Colour) -> Kinds {
    let [l, a, b] = reference;
    let square = |[_, a, b]: Colour| a * a + b * b;
    let squares = [reference, test].map(square);
    // line 6's sums, with their signs turned
    let [at_164, at_345] = [LINES[0], LINES[1]].map(|[p, q]| p * a as i128 + q * b as i128);
    let turn = turn(reference, test);
    let straight = !squares.contains(&0) && a * test[2] == b * test[1];
    let hue_square = sheet::hue_square(PLACES, reference, test);
    let beyond = beyond_near(sheet.de, tolerance.into());
    [
        ("neutral reference", a == 0 && b == 0),
        ("reference on an axis", (a == 0) != (b == 0)),
        ("reference just off an axis", a.abs().min(b.abs()) == 1),
        ("L of the reference is 16", l == 16 * ONE),
        ("L just below 16", l == 16 * ONE - 1),
        ("on the end at 164", at_164 == 0 && a < 0),
        ("inside it", (-20..0).contains(&at_164) && a < 0),
        ("outside it", (1..20).contains(&at_164) && a < 0),
        ("on the end at 345", at_345 == 0 && a > 0),
        ("inside it", (-20..0).contains(&at_345) && a > 0),
        ("outside it", (1..20).contains(&at_345) && a > 0),
        ("in one half-plane", (at_164 < 0) != (at_345 < 0)),
        ("equal colours", reference == test),
        ("same hue", straight && turn.is_none() && reference != test),
        ("half turn", straight && turn.is_some()),
        ("turn, ΔH is 0", turn.is_some() && sheet.delta_h == 0),
        ("turn, D² - ΔC² negative", turn.is_some() && hue_square < 0),
        ("ΔC is 0", sheet.delta_c == 0 && squares[0] != squares[1]),
        ("DE on an end of near", beyond == 0),
        ("a unit inside", (-2_000..0).contains(&beyond)),
        ("a unit outside", (1..2_000).contains(&beyond)),
    ]
}
