//! Calls to make.

use crate::host::{Host, Station};
use crate::paper::station::{decode, Load, Reading, STATION};
use crate::random::Random;

impl Random {
    /// A load that is accepted, and mostly a test specimen for it whose DE is about the tolerance.
    pub fn right_load(&mut self) -> (Load, Option<Reading>) {
        loop {
            let space = self.space();
            let any = self.reading(space);
            let grey = self.nearly_grey();
            // 0.002 from a multiple of 1/8: there a DE can be on an end of what is near
            let tolerance = 125 * (1 + self.below(79) as u32) - 2 + self.pick(&[0, 4]);
            let mut load = Load {
                formula: self.pick(&[1, 2, 3, 3]),
                white: 1 + self.below(4) as u32,
                l: self.factor(),
                c: self.factor(),
                tolerance,
                reference: if self.one_in(12) { grey } else { any },
            };
            if !load.faults(STATION).is_empty() {
                continue;
            }
            let test = self.beside(load.reference);
            let place = test.place(load.white);
            if self.one_in(3) || place.is_err() {
                return (load, None);
            }
            let sheet = load.standard().sheet(place.expect("in range"));
            load.tolerance = self.tolerance_beside(sheet.de) as u32;
            return (load, Some(test));
        }
    }

    /// The load with any of its parts made wrong, each one time in four.
    pub fn wrong_load(&mut self, load: Load) -> (Load, usize) {
        let mut wrong = load;
        if self.one_in(4) {
            wrong.formula = self.pick(&[0, 4, 5, 257, 65_539, 1 << 31, u32::MAX]);
        }
        if self.one_in(4) {
            wrong.white = self.pick(&[0, 5, 6, 257, 65_540, 1 << 31, u32::MAX]);
        }
        if self.one_in(4) {
            wrong.l = self.outside(500);
        }
        if self.one_in(4) {
            wrong.c = self.outside(500);
        }
        if self.one_in(4) {
            wrong.tolerance = self.outside(100);
        }
        match self.below(8) {
            0..=2 => wrong.reference = self.odd_reading(load.reference),
            3 => wrong.reference = self.far_from_grey(),
            _ => {}
        }
        (wrong, self.length(4))
    }
}

impl Host {
    pub fn any_load(&mut self, at: usize) {
        let (load, planned) = self.random.right_load();
        let (load, length) = if self.random.one_in(2) {
            (load, STATION)
        } else {
            self.random.wrong_load(load)
        };
        self.stations[at].planned = planned;
        self.load(at, load, length);
    }

    pub fn any_judgement(&mut self, at: usize) {
        let Station { slice, planned, .. } = self.stations[at];
        let random = &mut self.random;
        let space = random.space();
        let any = random.reading(space);
        let reading = match (random.below(8), planned, decode(&slice)) {
            (0..=2, Some(planned), _) => planned,
            (3..=4, _, Some(standard)) => random.specimen(&standard),
            (5, _, _) => random.odd_reading(any),
            (6, _, _) if random.one_in(2) => random.far_from_grey(),
            (7, _, _) => random.nearly_grey(),
            _ => any,
        };
        let length = random.length(16);
        self.judge(at, reading, length, None);
    }
}
