//! What a load, a judgement and a ticket hand back besides bytes (SCOPE 3.5).

use super::conversion::Colour;
use super::readings::handed_back;
use super::refusals::{Answer, WRONG_TEXT};
use super::sheet::{chroma, semi_axes, PLACES};
use super::standard::{accepted, Standard};
use super::{names, ticket};

/// Figures are in units of the grid. A load has no words, and 0 for its last figure.
#[derive(Clone, Copy, Default, PartialEq, Eq, Debug)]
pub struct Handed {
    number: u32,
    words: [u32; 5],
    figures: [i128; 8],
}

impl Handed {
    /// SCOPE 8.4: a refused call answers its number, with every figure 0.0 and no name.
    pub fn refused(number: u32) -> Handed {
        Handed {
            number,
            ..Handed::default()
        }
    }

    /// SCOPE 3.5: a load answers the reference's L*, a*, b*, C, SL, SC and SH.
    pub fn of_load(standard: &Standard) -> Handed {
        let [l, a, b] = standard.colour.map(i128::from);
        let c = chroma(PLACES, standard.colour);
        let semi_axes = semi_axes(PLACES, standard.formula, standard.colour);
        Handed {
            figures: [l, a, b, c, semi_axes.sl, semi_axes.sc, semi_axes.sh, 0],
            ..Handed::default()
        }
    }

    /// SCOPE 3.5: a judgement or a ticket answers the test specimen's L*, a*, b* and C, then DL, DC,
    /// DH, DE, the names and the verdict.
    pub fn of_judgement(standard: &Standard, test: Colour) -> Handed {
        let [l, a, b] = test.map(i128::from);
        let sheet = standard.sheet(test);
        let c = sheet.test_chroma;
        Handed {
            number: 0,
            words: names::words(&sheet, standard.tolerance.into(), standard.colour, test),
            figures: [l, a, b, c, sheet.dl, sheet.dc, sheet.dh, sheet.de],
        }
    }

    pub fn of_ticket(words: &[u8]) -> Answer<Handed> {
        let ticket = ticket::parse(words).map_err(|_| WRONG_TEXT)?;
        let (standard, test) = accepted(&ticket)?;
        Ok(Handed::of_judgement(&standard, test))
    }

    /// As `struct answer` of tests/shared/replay.h has it: the number, lightness, chroma, hue, its
    /// bracket, verdict, 4 bytes each; the figures as f64, 8 bytes each. Little-endian.
    pub fn bytes(&self) -> Vec<u8> {
        let floats = self.figures.map(|units| {
            let units = units.try_into().expect("at 20 places an i64 holds it");
            handed_back(units)
        });
        let mut bytes = Vec::with_capacity(88);
        bytes.extend(self.number.to_le_bytes());
        bytes.extend(self.words.into_iter().flat_map(u32::to_le_bytes));
        bytes.extend(floats.into_iter().flat_map(u64::to_le_bytes));
        bytes
    }
}
