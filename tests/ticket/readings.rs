//! Readings, factors and tolerances to try, all of them as a ticket has them: in decimals.

use crate::paper::conversion;
use crate::paper::numbers::square_root;
use crate::paper::ticket::Space;
use crate::random::Random;

/// A reading in millionths.
pub type Reading = [i64; 3];

pub const ONE: i64 = 1_000_000;
const LIGHTEST: i64 = 120 * ONE;
pub const SIDE: i64 = 256 * ONE;
const BRIGHTEST: i64 = 150 * ONE;
/// The greatest magnitude that three digits and six decimals can write.
pub const WIDEST: i64 = 999_999_999;

impl Random {
    fn with_sign(&mut self, magnitude: i64) -> i64 {
        self.pick(&[magnitude, -magnitude])
    }

    /// From 0 to most, every so often a whole number or one with few decimals.
    fn up_to(&mut self, most: i64) -> i64 {
        let any = self.below(most as u64 + 1) as i64;
        any - any % self.pick(&[1, 1, 1_000, 100_000, ONE])
    }

    pub fn factor(&mut self) -> u64 {
        let any = 500 + self.below(9_501);
        self.pick(&[500, 501, 999, 1_000, 1_001, 2_000, 9_999, 10_000, any, any])
    }

    pub fn wrong_factor(&mut self) -> u64 {
        let (less, more) = (self.below(500), 10_001 + self.below(89_999));
        self.pick(&[0, 1, 499, 10_001, 99_999, less, more])
    }

    pub fn wrong_tolerance(&mut self) -> u64 {
        let (less, more) = (self.below(100), 10_001 + self.below(89_999));
        self.pick(&[0, 1, 99, 10_001, 99_999, less, more])
    }

    /// L*, a*, b*, mostly for a reference.
    pub fn lab(&mut self) -> Reading {
        let l = self.up_to(LIGHTEST);
        let most = self.pick(&[32, 64, 128, 256]) * ONE;
        let [a, b] = [self.up_to(most), self.up_to(most)].map(|most| self.with_sign(most));
        let [near_a, near_b] = [self.within(6 * ONE), self.within(6 * ONE)];
        let few = self.within(2);
        match self.below(12) {
            0 => [l, 0, 0],
            1 => self.pick(&[[l, a, 0], [l, 0, b]]),
            2 => self.pick(&[[l, a, few], [l, few, b]]),
            3 | 4 => [l, near_a, near_b],
            5 | 6 => self.beside_four(l),
            7 => [16 * ONE + few, near_a, b],
            8 => {
                let sides = [-SIDE, -1, 0, 1, SIDE];
                [
                    self.pick(&[0, LIGHTEST]),
                    self.pick(&sides),
                    self.pick(&sides),
                ]
            }
            _ => [l, a, b],
        }
    }

    /// a² + b² close to 16: on an axis, or as near as six decimals allow.
    pub fn beside_four(&mut self, l: i64) -> Reading {
        let along = if self.one_in(2) {
            4 * ONE
        } else {
            self.below(4 * ONE as u64) as i64
        };
        let rest = (16 * ONE * ONE - along * along) as u128;
        let across = square_root(rest) as i64 + self.pick(&[-1, 0, 0, 1, 2, 1_000]);
        let [a, b] = [self.with_sign(along), self.with_sign(across)];
        self.pick(&[[l, a, b], [l, b, a]])
    }

    /// X, Y, Z for a reference: mostly a surface colour, up to a third more or less than a grey.
    pub fn xyz(&mut self, white: usize) -> Reading {
        let grey = self.below(100_000_001);
        let white = conversion::WHITES[white].map(|most| most as u64);
        match self.below(8) {
            0 => [0; 3].map(|_| self.up_to(BRIGHTEST)),
            1 => [0; 3].map(|_| {
                let width = 1 + self.below(27) as u32;
                self.of_width(width) as i64
            }),
            2 => white.map(|most| (most / 1_000 * (grey / 100_000)) as i64),
            _ => white.map(|most| {
                (most / 1_000 * (grey / 1_000) * (200 + self.below(200)) / 30_000_000) as i64
            }),
        }
    }

    /// X, Y, Z that are often beyond 256 as a*: one of X and Y is mostly dark.
    pub fn stark(&mut self) -> Reading {
        let [x, y, z] = [0; 3].map(|_| self.up_to(BRIGHTEST));
        let dark = self.up_to(5 * ONE);
        self.pick(&[[x, dark, z], [dark, y, z], [x, y, z]])
    }

    /// A test specimen, perhaps out of range.
    pub fn test_for(&mut self, space: Space, reference: Reading) -> Reading {
        let [p, q, r] = reference;
        let other = self.up_to(LIGHTEST);
        let most = 10_i64.pow(self.below(8) as u32);
        let (few, near) = (
            self.within(most.min(1_000)),
            [0; 3].map(|_| self.within(most)),
        );
        if self.one_in(12) {
            return reference;
        }
        match (space, self.below(12)) {
            (Space::Lab, 0) => [other, -q, -r],
            (Space::Lab, 1) => [other, 2 * q, 2 * r],
            (Space::Lab, 2) => self.pick(&[[p, -r, q], [p, r, -q], [other, -q, r], [other, q, -r]]),
            (Space::Lab, 3) => [other, few, 0],
            (Space::Lab, 4) => self.lab(),
            (Space::Xyz, 0) => [p + p / 8, q + q / 8, r + r / 8],
            (Space::Xyz, 1) => [0; 3].map(|_| self.up_to(BRIGHTEST)),
            (_, 5) => [p + near[0], q, r],
            (_, 6) => [p, q + near[1], r],
            (_, 7) => [p, q, r + near[2]],
            _ => [p + near[0], q + near[1], r + near[2]],
        }
    }

    /// The reading with one of its numbers, or more, put out of range.
    pub fn beyond(&mut self, space: Space, mut reading: Reading) -> Reading {
        let any = 1 + self.below(7);
        let places = self.pick(&[1, 2, 4, 4, any]);
        for (place, number) in reading.iter_mut().enumerate() {
            if places >> place & 1 == 1 {
                let (lowest, highest) = match (space, place) {
                    (Space::Xyz, _) => (0, BRIGHTEST),
                    (Space::Lab, 0) => (0, LIGHTEST),
                    (Space::Lab, _) => (-SIDE, SIDE),
                };
                let far = self.below((WIDEST - highest) as u64) as i64;
                *number = self.pick(&[
                    lowest - 1,
                    lowest - ONE,
                    highest + 1,
                    highest + 1 + far,
                    WIDEST,
                    -WIDEST,
                ]);
            }
        }
        reading
    }
}
