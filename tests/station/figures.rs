//! Figures at which the printing could go wrong (SCOPE 10.3): ties, and those beside which another
//! digit is shown.

use crate::aimed::one_way_apart;
use crate::host::{Host, Room};
use crate::paper::conversion::Colour;
use crate::paper::readings::{handed_back, GRID_ONE as ONE};
use crate::paper::report;
use crate::paper::sheet::Sheet;
use crate::paper::station::{Load, Reading, STATION};
use crate::paper::ticket::Space;

/// A tie is an odd multiple of 1/32, since 10,000/32 is 312 and a half.
const TIE: i64 = ONE / 32;

/// The least number of units that shows more than so many ten-thousandths.
fn least_above(shown: i64) -> i64 {
    ((2 * shown + 1) * ONE + 19_999) / 20_000
}

/// DL, DC and DH, in the order of the pairs that differ in them.
const PARTS: [fn(&Sheet) -> i128; 3] = [|sheet| sheet.dl, |sheet| sheet.dc, |sheet| sheet.dh];

fn on_the_grid(colour: Colour) -> Reading {
    Reading {
        space: Space::Lab,
        bits: colour.map(handed_back),
    }
}

impl Host {
    /// Every tie up to the greatest L*; and the figures on either side of a change of the last digit:
    /// the first digits, any, and those whose carry goes through several digits or adds one.
    pub fn each_figure(&mut self) {
        self.start([[0; STATION]; 2]);
        for odd in (1..120 * 32).step_by(2) {
            self.figure(odd * TIE);
        }
        let carries = [9, 99, 999, 9_999, 99_999, 999_999];
        let any = [0; 500].map(|_| self.random.below(1_200_000) as i64);
        for shown in (0..100).chain(carries).chain(any) {
            let above = least_above(shown);
            // two on either side, since DH is even
            for units in above - 2..=above + 1 {
                self.figure(units);
            }
        }
    }

    /// Judges pairs that differ by so many units, each way round, so with either sign.
    fn figure(&mut self, units: i64) {
        for ([first, second], part) in one_way_apart(units, ONE).into_iter().zip(PARTS) {
            for (reference, test) in [(first, second), (second, first)] {
                self.one_figure(reference, test, |sheet| {
                    let size = part(sheet).unsigned_abs() as i64;
                    assert!(size == units || size == units / 2 * 2, "{size} for {units}");
                });
            }
        }
    }

    /// Judges a pair under CIELAB in a room just large enough, and in one that lacks a byte.
    fn one_figure(&mut self, reference: Colour, test: Colour, check: impl Fn(&Sheet)) {
        let load = Load {
            formula: 1,
            white: 1,
            l: 1_000,
            c: 1_000,
            tolerance: 1_000,
            reference: on_the_grid(reference),
        };
        let standard = load.standard();
        check(&standard.sheet(test));
        self.load(0, load, STATION);
        let needed = report::report(&standard, test).len();
        for length in [needed, needed - 1] {
            let room = Room { length, column: 0 };
            self.judge(0, on_the_grid(test), STATION, Some(room));
        }
    }
}
