//! Roots, and figures handed back.

use crate::cases::Cases;
use crate::random::Random;

pub fn root_cases(cases: &mut Cases, random: &mut Random) {
    // every number of up to 16 binary digits: each first group, and what can stand behind it
    for x in (0..1 << 16).chain(u64::MAX - 2..=u64::MAX) {
        cases.square(x);
        cases.cube(x);
    }
    ends_of_widths(cases);
    for step in 0..6_600 {
        let square = random.of_width(1 + step % 32).pow(2);
        (square - 1..=square + 1).for_each(|x| cases.square(x));
        // 2642245 is the greatest number whose cube a u64 holds
        let cube = random.of_width(1 + step % 22).min(2_642_245).pow(3);
        (cube - 1..=cube + 1).for_each(|x| cases.cube(x));
    }
    for step in 0..11_000 {
        let x = random.of_width(1 + step % 64);
        cases.square(x);
        cases.cube(x);
    }
    let (square, cube) = (u64::from(u32::MAX).pow(2), 2_642_245_u64.pow(3));
    (square - 1..=square + 1).for_each(|x| cases.square(x));
    (cube - 1..=cube + 1).for_each(|x| cases.cube(x));
}

/// Where a number, or its root, gets one more binary digit; and roots whose digits are all 1, or 1 and 0 in turn.
fn ends_of_widths(cases: &mut Cases) {
    for width in 1..64 {
        let power = 1_u64 << width;
        for x in power - 1..=power + 1 {
            cases.square(x);
            cases.cube(x);
        }
    }
    for width in 1..=32 {
        let all = u64::from(u32::MAX) >> (32 - width);
        for root in [1 << (width - 1), all, 0xaaaa_aaaa >> (32 - width), all / 3] {
            around(root, 2, |x| cases.square(x));
            if root <= 2_642_245 {
                around(root, 3, |x| cases.cube(x));
            }
        }
    }
}

/// The power of a root, and the numbers just below and above it.
fn around(root: u64, exponent: u32, case: impl FnMut(u64)) {
    let power = root.pow(exponent);
    (power.saturating_sub(1)..=power + 1).for_each(case);
}

pub fn value_cases(cases: &mut Cases, random: &mut Random) {
    cases.value(0);
    cases.values(1..=300);
    for end in [1, 120, 150, 256] {
        cases.values((end << 20) - 2..=(end << 20) + 2);
    }
    for width in 1..=53 {
        let power = 1 << width;
        // above 2^53 not every number of units is an f64
        cases.values((power - 1..=power + 1).filter(|&units| units <= 1 << 53));
        cases.values((0..250).map(|_| random.of_width(width) as i64));
    }
}
