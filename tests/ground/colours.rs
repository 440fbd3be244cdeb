//! Colours, from X, Y, Z and from L*, a*, b*.

use crate::cases::Cases;
use crate::paper::conversion::{above_cut, f, WHITES};
use crate::paper::numbers::{greatest, MILLION, ONE};
use crate::paper::readings::{float_near, millionths, INFINITY, SIGN};
use crate::random::Random;
use crate::readings::{QUIET_NAN, SIGNALLING_NAN};

impl Random {
    fn white(&mut self) -> u32 {
        1 + self.below(4) as u32
    }

    /// A white number outside 1 to 4. Some become 1 when their upper bits are lost.
    fn wrong_white(&mut self) -> u32 {
        [0, 5, 6, 257, 65_537, 1 << 31, (1 << 31) + 1, u32::MAX][self.below(8) as usize]
    }

    /// X, Y or Z within the range.
    fn tristimulus(&mut self) -> u64 {
        millionths(u128::from(self.below(150_000_001)))
    }

    /// X, Y or Z within the range, dark ones as often as light ones.
    fn tristimulus_of_any_size(&mut self) -> u64 {
        let width = 1 + self.below(27) as u32;
        millionths(u128::from(self.of_width(width)))
    }

    /// Three readings made in the same way.
    fn three(&mut self, reading: impl Fn(&mut Random) -> u64) -> [u64; 3] {
        [0; 3].map(|_| reading(self))
    }
}

pub fn xyz_cases(cases: &mut Cases, random: &mut Random) {
    for number in 1..=4 {
        let white = WHITES[number as usize - 1];
        near_white(cases, number, white);
        around_cut(cases, random, number, white);
        steps_of_f(cases, random, number, white);
        around_256(cases, random, number, white);
        ordinary(cases, random, number, white);
    }
    xyz_refusals(cases, random);
}

/// The white itself with its neighbours, and every mixture of nothing, an eighth of the white, the
/// white and the upper end. The cube root of an eighth is a half exactly.
fn near_white(cases: &mut Cases, number: u32, white: [u128; 3]) {
    let neighbours = white.map(|most| [most - 1, most, most + 1].map(millionths));
    mixtures(neighbours).for_each(|readings| cases.xyz(number, readings));
    let rungs = white.map(|most| [0, most / 8, most, 150_000_000].map(millionths));
    mixtures(rungs).for_each(|readings| cases.xyz(number, readings));
}

/// In steps of a tenth of a millionth up to two millionths on either side of the cut: the reading
/// is a whole number of millionths before q is formed, so a float just above the cut can be below
/// it as a reading. Only Y can lie on the cut.
fn around_cut(cases: &mut Cases, random: &mut Random, number: u32, white: [u128; 3]) {
    for place in 0..3 {
        let last = greatest(150_000_000, |x| !above_cut(x, white[place]));
        for tenths in 10 * last - 20..=10 * last + 30 {
            for _ in 0..60 {
                let mut readings = random.three(Random::tristimulus_of_any_size);
                readings[place] = float_near(tenths, 10 * MILLION);
                cases.xyz(number, readings);
            }
        }
    }
}

/// The first number of millionths at which f reaches a value, and the one before it.
fn steps_of_f(cases: &mut Cases, random: &mut Random, number: u32, white: [u128; 3]) {
    for place in 0..3 {
        let (lowest, highest) = (f(0, white[place]), f(150_000_000, white[place]));
        for _ in 0..500 {
            let wanted = highest - random.below((highest - lowest) as u64) as i64;
            let before = greatest(150_000_000, |x| f(x, white[place]) < wanted);
            for x in [before, before + 1] {
                let mut readings = random.three(Random::tristimulus);
                readings[place] = millionths(x);
                cases.xyz(number, readings);
            }
        }
    }
}

/// The least difference fx - fy, of either sign, that puts a* beyond 256, and the millionth before
/// it. Under 24 the other of the two can still be bright enough for that. b* cannot come so far.
fn around_256(cases: &mut Cases, random: &mut Random, number: u32, white: [u128; 3]) {
    let least_beyond = (256 * ONE / 500) as i64 + 1;
    for (dark, bright) in [(0, 1), (1, 0)] {
        for _ in 0..500 {
            let low = u128::from(random.below(24_000_000));
            let wanted = f(low, white[dark]) + least_beyond;
            let before = greatest(150_000_000, |x| f(x, white[bright]) < wanted);
            for high in [before, before + 1] {
                let mut readings = [random.tristimulus(); 3];
                readings[dark] = millionths(low);
                readings[bright] = millionths(high);
                cases.xyz(number, readings);
            }
        }
    }
}

fn ordinary(cases: &mut Cases, random: &mut Random, number: u32, white: [u128; 3]) {
    for _ in 0..4_000 {
        cases.xyz(number, random.three(Random::tristimulus));
        cases.xyz(
            number,
            random.three(|random| random.float_within(150) & !SIGN),
        );
        // within two units of black, where both branches are met
        cases.xyz(
            number,
            random.three(|random| random.float_within(2) & !SIGN),
        );
        // surface colours: up to a third more or less than the grey of a random lightness
        let grey = u128::from(random.below(100_000_001));
        let surface = white.map(|most| {
            millionths(most * grey / 100_000_000 * (200 + u128::from(random.below(200))) / 300)
        });
        cases.xyz(number, surface);
    }
}

/// Every mixture of allowed and refused readings: 2 comes before 5, 5 before 6, 6 before 8,
/// wherever they stand.
fn xyz_refusals(cases: &mut Cases, random: &mut Random) {
    let end = float_near(150, 1);
    let kinds = [
        0,
        SIGN,
        1,
        SIGN | 1,
        millionths(885_600),
        float_near(100, 1),
        end,
        end + 1,
        float_near(151, 1),
        SIGN | float_near(1, 1),
        QUIET_NAN,
        SIGN | SIGNALLING_NAN,
        INFINITY,
        SIGN | INFINITY,
    ];
    for readings in mixtures([kinds; 3]) {
        (1..=4).for_each(|number| cases.xyz(number, readings));
        cases.xyz(random.wrong_white(), readings);
    }
    for _ in 0..3_000 {
        cases.xyz(random.wrong_white(), random.three(Random::tristimulus));
        cases.xyz(random.white(), random.three(Random::next));
        cases.xyz(
            random.white(),
            random.three(|random| random.float_within(200)),
        );
        let mut readings = random.three(|random| random.float_within(160) & !SIGN);
        cases.xyz(random.white(), readings);
        readings[random.below(3) as usize] = random.not_a_number();
        cases.xyz(random.white(), readings);
    }
}

pub fn lab_cases(cases: &mut Cases, random: &mut Random) {
    lab_refusals(cases, random);
    for _ in 0..3_000 {
        let mut within = [120, 256, 256].map(|end| random.float_within(end));
        within[0] &= !SIGN;
        (1..=4).for_each(|number| cases.lab(number, within));
        cases.lab(random.wrong_white(), within);
        cases.lab(random.white(), random.three(Random::next));
        let around = [140, 300, 300].map(|end| random.float_within(end));
        cases.lab(random.white(), around);
        let ties = [120, 256, 256].map(|end| random.sign() | grid_tie(random, end));
        cases.lab(random.white(), ties);
    }
}

/// Every mixture of allowed and refused readings, as for X, Y, Z.
fn lab_refusals(cases: &mut Cases, random: &mut Random) {
    let (top, side) = (float_near(120, 1), float_near(256, 1));
    let lightness = [
        0,
        SIGN,
        1,
        SIGN | 1,
        float_near(101, 2 * ONE),
        float_near(50, 1),
        top,
        top + 1,
        float_near(121, 1),
        SIGN | top,
        QUIET_NAN,
        SIGN | SIGNALLING_NAN,
        INFINITY,
        SIGN | INFINITY,
    ];
    let opponent = [
        0,
        SIGN,
        1,
        SIGN | 1,
        SIGN | float_near(101, 2 * ONE),
        side,
        SIGN | side,
        side + 1,
        SIGN | (side + 1),
        float_near(300, 1),
        SIGN | QUIET_NAN,
        SIGNALLING_NAN,
        INFINITY,
        SIGN | INFINITY,
    ];
    for readings in mixtures([lightness, opponent, opponent]) {
        cases.lab(random.white(), readings);
        cases.lab(random.wrong_white(), readings);
    }
}

/// A magnitude midway between two units of the grid.
fn grid_tie(random: &mut Random, end: u64) -> u64 {
    float_near(2 * u128::from(random.below(end << 20)) + 1, 2 * ONE)
}

/// Every triple with one of the first kinds in its first place, and so on.
fn mixtures<const N: usize>(
    [first, second, third]: [[u64; N]; 3],
) -> impl Iterator<Item = [u64; 3]> {
    first.into_iter().flat_map(move |p| {
        second
            .into_iter()
            .flat_map(move |q| third.map(|r| [p, q, r]))
    })
}
