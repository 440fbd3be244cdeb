//! Readings, factors, rooms and lengths to try.

use crate::aimed::least_delta_l;
use crate::host::Room;
use crate::paper::readings::{handed_back, Quantity, FRACTION, INFINITY, SIGN};
use crate::paper::readings::{GRID_ONE as ONE, LIGHTEST};
use crate::paper::standard::Standard;
use crate::paper::station::{Reading, STATION};
use crate::paper::ticket::Space;
use crate::random::Random;

impl Random {
    /// From 0 to 1, for floats that need not be exact.
    fn part(&mut self) -> f64 {
        self.below(1 << 53) as f64 / (1_u64 << 53) as f64
    }

    pub fn factor(&mut self) -> u32 {
        let any = 500 + self.below(9_501) as u32;
        self.pick(&[
            500, 501, 1_000, 1_000, 1_000, 2_000, 2_000, 9_999, 10_000, any, any,
        ])
    }

    /// A number outside a range that ends at 10,000. Some come into it if their upper bits are lost.
    pub fn outside(&mut self, least: u32) -> u32 {
        let beyond = [10_001, (1 << 16) + 1_000, (1 << 31) + 1_000, u32::MAX];
        self.pick(&[&[0, 1, least - 1], &beyond[..]].concat())
    }

    /// A float at which a reading of this kind could go wrong.
    fn odd(&mut self, quantity: Quantity) -> u64 {
        let sign = self.pick(&[0, SIGN]);
        let beside = self.pick(&[0, 0, 1, 2, u64::MAX, u64::MAX - 1]);
        let highest = match quantity {
            Quantity::Tristimulus => 150.0_f64,
            Quantity::Lightness => 120.0,
            Quantity::Opponent => 256.0,
        };
        match self.below(9) {
            // not-a-number, quiet and signalling, with any payload
            0 => {
                let payload = 1 + self.below(FRACTION);
                sign | INFINITY | self.pick(&[1, 1 << 51, (1 << 51) - 1, FRACTION, payload])
            }
            1 => sign | INFINITY,
            // zero, the smallest and the greatest subnormal numbers, the smallest normal one
            2 => sign | self.pick(&[0, 0, 1, 2, FRACTION, 1 << 52]),
            3 | 4 => sign | highest.to_bits().wrapping_add(beside),
            // a tie, and its neighbours
            5 | 6 => {
                let tie = self.tie(quantity, highest);
                let sign = match quantity {
                    Quantity::Opponent => sign,
                    _ => 0,
                };
                sign | tie.to_bits().wrapping_add(beside)
            }
            7 => {
                sign | self
                    .pick(&[1e-7, 0.25, 151.0, 120.5, 257.0, 1e9, 1e300_f64])
                    .to_bits()
            }
            _ => self.next(),
        }
    }

    /// An odd number of half units. Half a millionth is exact only at odd multiples of 1/128.
    fn tie(&mut self, quantity: Quantity, highest: f64) -> f64 {
        let units = match quantity {
            Quantity::Tristimulus => 128.0,
            _ => 2.0 * ONE as f64,
        };
        // a millionth more or less shows best in a small X, Y or Z
        let most = self.pick(&[highest, highest, 1.0]) * units;
        let halves = self.below(most as u64) | 1;
        halves as f64 / units
    }

    pub fn space(&mut self) -> Space {
        self.pick(&[Space::Xyz, Space::Lab])
    }

    /// A reading as an instrument could give it, mostly in range.
    pub fn reading(&mut self, space: Space) -> Reading {
        let parts = [self.part(), self.part(), self.part()];
        // with the last of these every other number is a tie
        let (values, places) = match space {
            Space::Lab => {
                let most = self.pick(&[4.0, 12.0, 40.0, 128.0, 256.0]);
                let [a, b] = [parts[1], parts[2]].map(|part| most * (2.0 * part - 1.0));
                let places = self.pick(&[1e2, 1e4, ONE as f64, 2.0 * ONE as f64]);
                ([120.0 * parts[0], a, b], places)
            }
            Space::Xyz => {
                let y = 110.0 * parts[0] * self.pick(&[1.0, 1.0, 0.1, 0.01]);
                let [x, z] = [parts[1], parts[2]].map(|part| y * (0.75 + 0.5 * part));
                let places = self.pick(&[1e2, 1e4, 1e6, 1e9, 128.0]);
                ([0.95 * x, y, 1.1 * z], places)
            }
        };
        Reading {
            space,
            bits: values.map(|value| ((value * places).trunc() / places).to_bits()),
        }
    }

    /// A neutral colour, one at the end of what is achromatic, or one a unit beside.
    pub fn nearly_grey(&mut self) -> Reading {
        let l = self.below(LIGHTEST as u64 + 1) as i64;
        let plane = self.pick(&[[0, 0], [4, 0], [-4, 0], [0, 4], [0, -4]]);
        let [a, b] = plane.map(|value: i64| value * ONE + self.within(1));
        Reading {
            space: Space::Lab,
            bits: [l, a, b].map(handed_back),
        }
    }

    /// A reading with one coordinate, or more, put where it could go wrong.
    pub fn odd_reading(&mut self, mut reading: Reading) -> Reading {
        let places = 1 + self.below(7);
        for (place, quantity) in reading.space.quantities().into_iter().enumerate() {
            if places >> place & 1 == 1 {
                reading.bits[place] = self.odd(quantity);
            }
        }
        reading
    }

    /// X without Y: a* lies beyond 256, or not far below.
    pub fn far_from_grey(&mut self) -> Reading {
        let x = 20.0 + 130.0 * self.part();
        let z = 100.0 * self.part();
        Reading {
            space: Space::Xyz,
            bits: [x, self.pick(&[0.0, 0.0, 1.0]), z].map(f64::to_bits),
        }
    }

    /// A reading a little away from another one, perhaps out of range.
    pub fn beside(&mut self, reading: Reading) -> Reading {
        let size = self.pick(&[0.0, 0.01, 0.1, 0.5, 2.0, 8.0]);
        let bits = reading.bits.map(|bits| {
            let by = size * (2.0 * self.part() - 1.0);
            let by = if self.one_in(4) { 0.0 } else { by };
            (f64::from_bits(bits) + by).to_bits()
        });
        Reading { bits, ..reading }
    }

    /// A test specimen on the grid that goes with this reference, or nearly.
    pub fn specimen(&mut self, standard: &Standard) -> Reading {
        let [l, a, b] = standard.colour;
        let other = self.below(LIGHTEST as u64 + 1) as i64;
        let digits = 1 + self.below(24) as u32;
        let most = self.of_width(digits) as i64;
        let colour = match self.below(10) {
            0 => [l, a, b],
            1 => [l + self.within(2), a + self.within(2), b + self.within(2)],
            2 => [l, -a, -b],
            3 => [other, a / 2, b / 2],
            4 => self.pick(&[[l, -b, a], [other, b, -a], [other, -a, b], [l, a, -b]]),
            5 | 6 => {
                let thousandths = standard.tolerance as i64 + self.within(3);
                let units = thousandths * ONE / 1_000 + self.within(1);
                [l + self.lightness_for(standard, units), a, b]
            }
            _ => standard.colour.map(|units| units + self.within(most)),
        };
        Reading {
            space: Space::Lab,
            bits: colour.map(handed_back),
        }
    }

    /// The least ΔL that makes DL so many units, of either sign.
    fn lightness_for(&mut self, standard: &Standard, units: i64) -> i64 {
        let delta = least_delta_l(standard, units);
        self.pick(&[delta, -delta])
    }

    /// A room of about the report's length, or of none, from any column.
    pub fn room(&mut self, needed: usize) -> Room {
        let near = (needed as i64 + self.within(3)).max(0) as usize;
        let [any, other] = [400, 400].map(|end| self.below(end) as usize);
        let small = self.below(12) as usize;
        let (length, column) = match self.below(16) {
            0..=4 => (needed + any, any.min(other)),
            5..=7 => (needed + small, small),
            8 | 9 => (near + small, small),
            10 => (near + any, any),
            11 => (any, any + small),
            12 => (0, self.pick(&[0, 0, small, usize::MAX])),
            13 => (any, other),
            // so far that the column and the report's length go past the greatest number
            14 => (any, usize::MAX - other),
            _ => (any, self.pick(&[1 << 31, 1 << 32, 1 << 63, (1 << 63) - 1])),
        };
        Room { length, column }
    }

    /// The length of a station's slice: another one, up to 40, one time in so many.
    pub fn length(&mut self, one_in: u64) -> usize {
        let length = self.below(40) as usize;
        if self.one_in(one_in) {
            length + usize::from(length >= STATION)
        } else {
            STATION
        }
    }
}
