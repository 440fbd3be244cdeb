//! The records: a pair of colours under the terms of a call, with what the paper says of it.

use crate::list::List;
use crate::paper::conversion::Colour;
use crate::paper::names;
use crate::paper::readings::on_grid;
use crate::paper::refusals::{Answer, NO_STANDARD};
use crate::paper::settings;
use crate::paper::sheet::{chroma, semi_axes, Sheet, PLACES};
use crate::paper::standard::Standard;
use crate::random::Random;
use crate::seen::Seen;

pub const CIELAB: u32 = 1;
pub const CIE94: u32 = 2;
pub const CMC: u32 = 3;

/// What a call is made with, but for the two colours. l, c and the tolerance are thousandths.
#[derive(Clone, Copy)]
pub struct Terms {
    pub formula: u32,
    pub l: u32,
    pub c: u32,
    pub tolerance: u32,
}

impl Terms {
    /// The standard of a load that is accepted. L*, a* and b* are the same under every white.
    pub fn standard(self, colour: Colour) -> Standard {
        Standard {
            formula: settings::formula_numbered(self.formula).expect("one of the three"),
            white: 1,
            l: self.l.into(),
            c: self.c.into(),
            tolerance: self.tolerance.into(),
            colour,
        }
    }
}

/// The load, with its refusals in the paper's order (SCOPE 8.2): 1, 3 for l and then c, 4, 6.
fn load(terms: Terms, reference: Colour) -> Answer<Standard> {
    settings::formula_numbered(terms.formula)?;
    settings::factor(terms.l.into())?;
    settings::factor(terms.c.into())?;
    settings::tolerance(terms.tolerance.into())?;
    on_grid(reference)?;
    Ok(terms.standard(reference))
}

/// The judgement from a station of zeros that this load came to: 9, then 6.
fn judge(loaded: Answer<Standard>, test: Colour) -> Answer<Sheet> {
    let standard = loaded.map_err(|_| NO_STANDARD)?;
    Ok(standard.sheet(on_grid(test)?))
}

/// C, SL, SC, SH.
fn reference_figures(standard: &Standard) -> [i128; 4] {
    let semi_axes = semi_axes(PLACES, standard.formula, standard.colour);
    let c = chroma(PLACES, standard.colour);
    [c, semi_axes.sl, semi_axes.sc, semi_axes.sh]
}

/// SCOPE 10.4: how many lines of a report are withheld under CMC.
fn withheld_lines(terms: Terms, reference: Colour, test: Colour) -> i128 {
    let mut standard = terms.standard(reference);
    standard.formula = settings::Formula::Cmc;
    4 * i128::from(standard.withholds(test))
}

/// C, DL, DC, DH, DE, the words, ΔL, ΔC, ΔH, the lines withheld.
fn test_figures(sheet: &Sheet, terms: Terms, reference: Colour, test: Colour) -> [i128; 14] {
    let words = names::words(sheet, terms.tolerance.into(), reference, test).map(i128::from);
    let [lightness, chroma, hue, bracket, verdict] = words;
    [
        sheet.test_chroma,
        sheet.dl,
        sheet.dc,
        sheet.dh,
        sheet.de,
        lightness,
        chroma,
        hue,
        bracket,
        verdict,
        sheet.delta_l,
        sheet.delta_c,
        sheet.delta_h,
        withheld_lines(terms, reference, test),
    ]
}

pub struct Pairs {
    pub random: Random,
    list: List,
    records: i64,
    seen: Seen,
}

impl Pairs {
    pub fn open() -> Pairs {
        Pairs {
            random: Random(2244),
            list: List::open(),
            records: 0,
            seen: Seen::default(),
        }
    }

    fn write(&mut self, numbers: &[i64]) {
        for number in numbers {
            self.list.write(&number.to_le_bytes());
        }
    }

    fn write_figures(&mut self, figures: &[i128]) {
        for &figure in figures {
            self.write(&[figure.try_into().expect("at 20 places an i64 holds it")]);
        }
    }

    /// The pair under these terms, refused or not.
    pub fn record(&mut self, terms: Terms, reference: Colour, test: Colour) {
        let Terms {
            formula,
            l,
            c,
            tolerance,
        } = terms;
        let loaded = load(terms, reference);
        let judged = judge(loaded, test);
        let refusals = [loaded.err(), judged.err()].map(|number| number.unwrap_or(0));
        let [of_load, of_judgement] = refusals;
        self.write(&[formula, l, c, tolerance, of_load, of_judgement].map(i64::from));
        self.write(&reference);
        self.write_figures(&loaded.map_or([0; 4], |standard| reference_figures(&standard)));
        self.write(&test);
        self.write_figures(&judged.map_or([0; 14], |sheet| {
            test_figures(&sheet, terms, reference, test)
        }));
        self.records += 1;
        if let Ok(sheet) = &judged {
            self.seen.pair(sheet, tolerance, reference, test);
        }
    }

    /// The pair under this formula, l and c, with a tolerance that is mostly not far from DE. A pair
    /// that is not wholly on the grid is passed over.
    pub fn put(&mut self, formula: u32, [l, c]: [u32; 2], reference: Colour, test: Colour) {
        let mut terms = Terms {
            formula,
            l,
            c,
            tolerance: 1_000,
        };
        if let Ok(sheet) = judge(load(terms, reference), test) {
            terms.tolerance = self.random.tolerance_near(sheet.de) as u32;
            self.record(terms, reference, test);
        }
    }

    /// The pair under any formula, l and c.
    pub fn add(&mut self, reference: Colour, test: Colour) {
        let formula = self.random.pick(&[CIELAB, CIE94, CMC, CMC, CMC]);
        let factors = [self.random.factor(), self.random.factor()];
        self.put(formula, factors, reference, test);
    }

    /// Pairs of this colour with others of every kind, as the reference and as the test specimen.
    pub fn try_either(&mut self, colour: Colour, times: u32) {
        for _ in 0..times {
            let other = self.random.test_for(colour);
            self.add(colour, other);
            self.add(other, colour);
        }
    }

    /// Pairs of this reference with test specimens of every kind.
    pub fn try_reference(&mut self, reference: Colour, times: u32) {
        for _ in 0..times {
            let test = self.random.test_for(reference);
            self.add(reference, test);
        }
    }

    pub fn end(mut self) {
        self.seen.check();
        let mut trailer = [0; 30];
        trailer[..2].copy_from_slice(&[-1, self.records]);
        self.write(&trailer);
        self.list.close();
    }
}
