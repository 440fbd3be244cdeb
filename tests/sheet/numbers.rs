//! Colours and factors to try.

use crate::paper::conversion::Colour;
use crate::paper::readings::{LIGHTEST, SIDE, SIGN};
use crate::random::Random;

impl Random {
    pub fn with_sign(&mut self, magnitude: i64) -> i64 {
        if self.next() & SIGN == 0 {
            magnitude
        } else {
            -magnitude
        }
    }

    /// A number of at most so many binary digits, of either sign, small ones as often as large ones.
    pub fn of_any_size(&mut self, digits: u64) -> i64 {
        let width = 1 + self.below(digits) as u32;
        let magnitude = self.of_width(width) as i64;
        self.with_sign(magnitude)
    }

    pub fn lightness(&mut self) -> i64 {
        self.below(LIGHTEST as u64 + 1) as i64
    }

    /// A colour anywhere on the grid.
    pub fn colour(&mut self) -> Colour {
        [self.lightness(), self.within(SIDE), self.within(SIDE)]
    }

    /// A colour with a and b up to so much.
    pub fn colour_within(&mut self, most: i64) -> Colour {
        [self.lightness(), self.within(most), self.within(most)]
    }

    /// The colour with each coordinate up to so much away, perhaps off the grid.
    pub fn beside(&mut self, colour: Colour, most: i64) -> Colour {
        colour.map(|coordinate| coordinate + self.within(most))
    }

    /// A small difference of any size from a unit to 8.
    pub fn small_difference(&mut self, colour: Colour) -> Colour {
        let most = 1 << self.below(24);
        self.beside(colour, most)
    }

    /// A test specimen, perhaps off the grid.
    pub fn test_for(&mut self, reference: Colour) -> Colour {
        let [l, a, b] = reference;
        let other = self.lightness();
        match self.below(16) {
            0..=2 => self.colour(),
            3..=7 => self.small_difference(reference),
            8 => self.beside(reference, 2),
            9 => [l, -a, -b],
            10 => [other, -2 * a, -2 * b],
            11 => [other, 2 * a, 2 * b],
            // a quarter to either side, and across either axis
            12 => self.pick(&[[l, -b, a], [l, b, -a], [other, -a, b], [other, a, -b]]),
            13 => [other, self.of_any_size(28), 0],
            14 => [other, 0, self.of_any_size(28)],
            _ => [other, self.within(2), self.within(2)],
        }
    }

    pub fn factor(&mut self) -> u32 {
        let any = 500 + self.below(9_501) as u32;
        let set = [
            500, 501, 999, 1_000, 1_000, 1_000, 1_001, 2_000, 2_000, 9_999, 10_000, any, any,
        ];
        self.pick(&set)
    }
}
