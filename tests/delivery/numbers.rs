//! Cones, settings and result slices to try.

use crate::paper::conversion::Colour;
use crate::paper::delivery::Sort;
use crate::paper::readings::{float_near, GRID_ONE as ONE, INFINITY, LIGHTEST, SIDE, SIGN};
use crate::paper::ticket::Space;
use crate::random::Random;

/// The bits of a cone's three readings.
pub type Cone = [u64; 3];

pub const SPACES: [Space; 2] = [Space::Xyz, Space::Lab];

impl Random {
    /// From 0 to 1, for floats that need not be exact.
    pub fn part(&mut self) -> f64 {
        self.below(1 << 53) as f64 / (1_u64 << 53) as f64
    }

    pub fn factor(&mut self) -> u32 {
        let any = 500 + self.below(9_501) as u32;
        self.pick(&[
            500, 501, 1_000, 1_000, 1_000, 2_000, 2_000, 9_999, 10_000, any, any,
        ])
    }

    /// How many cones most deliveries have.
    pub fn few(&mut self) -> usize {
        if self.one_in(50) {
            return 9 + self.below(24) as usize;
        }
        self.pick(&[2, 2, 3, 3, 4, 4, 5, 6, 7, 8])
    }

    /// A colour of the grid with a and b up to so much.
    pub fn colour_within(&mut self, most: i64) -> Colour {
        let l = self.below(LIGHTEST as u64 + 1) as i64;
        [l, self.within(most), self.within(most)]
    }

    /// The colour with each coordinate up to so much away, on the grid.
    pub fn beside(&mut self, [l, a, b]: Colour, most: i64) -> Colour {
        let mut moved = |units: i64, least, greatest| {
            let units = units + self.within(most);
            units.clamp(least, greatest)
        };
        [
            moved(l, 0, LIGHTEST),
            moved(a, -SIDE, SIDE),
            moved(b, -SIDE, SIDE),
        ]
    }

    /// Readings that are read as this colour: mostly its own, every so often up to half a unit less,
    /// which is a tie.
    pub fn read_as(&mut self, colour: Colour) -> Cone {
        let most = if self.one_in(4) { 4 } else { 0 };
        colour.map(|units| {
            let magnitude = 8 * units.unsigned_abs();
            let eighths = magnitude - self.below(1 + most).min(magnitude);
            let minus = units < 0 || (units == 0 && self.one_in(8));
            let sign = if minus { SIGN } else { 0 };
            sign | float_near(eighths.into(), 8 * ONE as u128)
        })
    }

    pub fn all_read_as(&mut self, colours: &[Colour]) -> Vec<Cone> {
        colours.iter().map(|&colour| self.read_as(colour)).collect()
    }

    /// X, Y and Z of a colour that is not far from grey, dark ones often.
    pub fn tristimulus(&mut self) -> [f64; 3] {
        let y = 110.0 * self.part() * self.pick(&[1.0, 1.0, 0.1, 0.01]);
        let [x, z] = [0.95, 1.1].map(|white| white * y * (0.75 + 0.5 * self.part()));
        [x, y, z]
    }

    /// As an instrument could give it, each of the three up to this part of it away.
    pub fn tristimulus_beside(&mut self, centre: [f64; 3], most: f64) -> Cone {
        // with the last of these every other number is a tie
        let places = self.pick(&[1e2, 1e4, 1e6, 1e9, 128.0]);
        centre.map(|value| {
            let moved = value * (1.0 + most * (2.0 * self.part() - 1.0));
            ((moved * places).trunc() / places).min(150.0).to_bits()
        })
    }

    /// Cones that lie about one colour, anything from a unit to the whole grid apart.
    pub fn cones(&mut self, space: Space, count: usize) -> Vec<Cone> {
        match space {
            Space::Xyz => {
                let centre = self.tristimulus();
                let most = self.pick(&[0.0, 1e-6, 0.002, 0.02, 0.1, 0.5]);
                let cones = (0..count).map(|_| self.tristimulus_beside(centre, most));
                cones.collect()
            }
            Space::Lab => {
                let side = self.pick(&[4 * ONE, 12 * ONE, 60 * ONE, SIDE]);
                let centre = self.colour_within(side);
                let most = self.pick(&[2, 64, ONE / 16, ONE / 2, 2 * ONE, 16 * ONE, 2 * SIDE]);
                let colours: Vec<Colour> = (0..count).map(|_| self.beside(centre, most)).collect();
                self.all_read_as(&colours)
            }
        }
    }

    pub fn shuffle<T>(&mut self, list: &mut [T]) {
        for last in (1..list.len()).rev() {
            list.swap(last, self.below(last as u64 + 1) as usize);
        }
    }

    /// What so many entries of a result slice hold before the call: not-a-number, quiet or
    /// signalling, or another float that is no DE, or one that could be. No two hold the same.
    pub fn results(&mut self, count: usize) -> Vec<u64> {
        let any = self.next();
        let quiet = SIGN | INFINITY | 1 << 51 | any >> 20;
        let first = self.pick(&[quiet, INFINITY | 1 << 12, 1.5_f64.to_bits(), SIGN, any]);
        (0..count as u64).map(|place| first ^ place).collect()
    }

    /// A sort of these cones under any white, l and c, with a result slice that is long enough.
    pub fn sort(&mut self, space: Space, cones: &[Cone]) -> Sort {
        let any = self.below(40) as usize;
        let more = self.pick(&[0, 0, 1, 2, any]);
        Sort {
            white: 1 + self.below(4) as u32,
            l: self.factor(),
            c: self.factor(),
            space,
            readings: [0, 1, 2].map(|place: usize| cones.iter().map(|cone| cone[place]).collect()),
            results: self.results(cones.len() + more),
        }
    }

    pub fn any_sort(&mut self, space: Space, count: usize) -> Sort {
        let cones = self.cones(space, count);
        self.sort(space, &cones)
    }
}
