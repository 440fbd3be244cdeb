//! Readings and decimals.

use crate::cases::Cases;
use crate::paper::numbers::{MILLION, ONE};
use crate::paper::readings::{float_near, FRACTION, INFINITY, SIGN};
use crate::random::Random;

pub const QUIET_NAN: u64 = INFINITY | 1 << 51;

pub const SIGNALLING_NAN: u64 = INFINITY | 1;

impl Random {
    pub fn sign(&mut self) -> u64 {
        self.next() & SIGN
    }

    /// A float of either sign, even over the values whose magnitude is below `end`.
    pub fn float_within(&mut self, end: u64) -> u64 {
        self.sign() | float_near(u128::from(self.below(end << 44)), 1 << 44)
    }

    /// Not-a-number: either sign, quiet or signalling, any payload.
    pub fn not_a_number(&mut self) -> u64 {
        self.sign() | INFINITY | (self.next() & FRACTION).max(1)
    }

    /// The numbers from 0 to 49, then random ones below `end`.
    fn spread(&mut self, count: u64, end: u64) -> Vec<u128> {
        let number = |step| if step < 50 { step } else { self.below(end) };
        (0..count).map(number).map(u128::from).collect()
    }
}

/// A magnitude with its two neighbours on either side, all with either sign.
fn beside(magnitude: u64) -> impl Iterator<Item = u64> {
    (magnitude.saturating_sub(2)..=magnitude + 2).flat_map(|bits| [bits, bits | SIGN])
}

pub fn reading_cases(cases: &mut Cases, random: &mut Random) {
    for end in [0, 120, 150, 256] {
        cases.readings(beside(float_near(end, 1)));
        // from the end to a few units beyond it: less than half a unit beyond is still outside the
        // range
        for _ in 0..400 {
            let past = float_near((end << 40) + u128::from(random.below(1 << 21)), 1 << 40);
            cases.readings([past, past | SIGN]);
        }
    }
    reading_ties(cases, random);
    not_finite_and_tiny(cases, random);
    for _ in 0..10_000 {
        cases.readings([random.next(), random.float_within(300)]);
    }
    // magnitudes of every size from 2^-80 to 2^20
    for _ in 0..6_000 {
        let exponent = 1023 - 80 + random.below(100);
        cases.readings([random.sign() | (exponent << 52) | (random.next() & FRACTION)]);
    }
}

fn reading_ties(cases: &mut Cases, random: &mut Random) {
    // ties of the grid: odd multiples of 2^-21
    for below in random.spread(1_500, 257 << 20) {
        cases.readings(beside(float_near(2 * below + 1, 2 * ONE)));
    }
    // ties of the millionths: only odd multiples of 2^-7 lie midway between two of them
    for below in random.spread(500, 64 * 151) {
        cases.readings(beside(float_near(2 * below + 1, 128)));
    }
    // the floats nearest to the middle between two millionths
    for below in random.spread(1_500, 151_000_000) {
        cases.readings(beside(float_near(2 * below + 1, 2 * MILLION)));
    }
    // whole units, which have to come back as they are
    for count in random.spread(300, 150_000_000) {
        cases.readings(beside(float_near(count, ONE)));
        cases.readings(beside(float_near(count, MILLION)));
    }
}

fn not_finite_and_tiny(cases: &mut Cases, random: &mut Random) {
    cases.readings(beside(QUIET_NAN));
    cases.readings([!SIGN, u64::MAX]);
    // the greatest finite number, the infinite one after it, and the smallest normal one
    cases.readings(beside(INFINITY));
    cases.readings(beside(1 << 52));
    for step in 0..1_000 {
        let subnormal = random.of_width(1 + step % 52);
        cases.readings([random.not_a_number(), subnormal, subnormal | SIGN]);
    }
}

pub fn decimal_cases(cases: &mut Cases, random: &mut Random) {
    for end in [0_u64, 120, 150, 256, 512, 999] {
        let end = end * 1_000_000;
        cases.decimals(end.saturating_sub(3)..=end + 3);
    }
    // numbers that a narrower register would cut down into the range
    for width in 28..64 {
        cases.decimals([0, 1, 999_999].map(|more| (1 << width) + more));
    }
    cases.decimals([u64::MAX, u64::MAX - 1, SIGN - 1, 999_999_999]);
    // No decimal lies midway between two units of the grid: 2^20 / 10^6 is 2^14 / 5^6, and 5^6 is
    // odd. Nearest to the middle are those that leave 7812 or 7813 over 5^6 = 15625.
    let almost = (0..15_625).filter(|count| (7812..=7813).contains(&(count * 16_384 % 15_625)));
    for count in almost {
        cases.decimals((0..400).map(|_| count + 15_625 * random.below(18_000)));
    }
    for step in 0..3_000 {
        cases.decimals([random.below(300_000_000), random.of_width(1 + step % 64)]);
    }
}
