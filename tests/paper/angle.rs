//! The hue angle (SCOPE 7.4): the table of directions, worked out in whole numbers, and how far round a
//! colour has come.

use std::cmp::Ordering;

use super::conversion::Colour;
use super::readings::{GRID_ONE, SIDE};
use super::turn::{cross, plane};

/// One, in the unit in which a series is summed.
const FINE: i128 = 1_000_000_000_000_000_000;
/// π, in that unit.
const PI: i128 = 3_141_592_653_589_793_238;
/// 10^-8, the unit of the table.
const UNIT: i128 = FINE / 100_000_000;

/// More than a sum can be off by, in its own unit: x, x² and each term are off by less than 10, and
/// there are at most 13 terms.
const ERROR: i128 = 1_000;

/// x^n/n! - x^(n+2)/(n+2)! + .., from its first term on, up to the first that is less than a unit. What
/// comes after that is less than a unit too.
const fn series(x: i128, mut n: i128, first: i128) -> i128 {
    let square = x * x / FINE;
    let (mut sum, mut term) = (0, first);
    while term != 0 {
        sum += term;
        n += 2;
        term = -term * square / FINE / (n * (n - 1));
    }
    sum
}

/// The nearest unit of the table. It is the nearest to the true value too, since no sum comes so close
/// to a half that its error could matter.
const fn nearest_unit(sum: i128) -> i128 {
    let nearest = (sum + UNIT / 2) / UNIT;
    assert!((sum - nearest * UNIT).abs() < UNIT / 2 - ERROR);
    nearest
}

/// SCOPE 7.4: the cosine and the sine of each whole degree from 0 to 90 to the nearest eight decimals,
/// as whole numbers of 10^-8.
pub const TABLE: [[i128; 2]; 91] = {
    let mut table = [[0; 2]; 91];
    let mut degree = 0;
    while degree <= 90 {
        let x = PI * degree as i128 / 180;
        let [cosine, sine] = [series(x, 0, FINE), series(x, 1, x)];
        table[degree] = [nearest_unit(cosine), nearest_unit(sine)];
        degree += 1;
    }
    table
};

/// SCOPE 7.4: each quarter turn takes (x, y) to (-y, x).
pub fn quarter_turn([x, y]: [i128; 2]) -> [i128; 2] {
    [-y, x]
}

/// SCOPE 7.4: degree 90q + k has the direction (cosine, sine) of k degrees after q quarter turns.
pub fn direction(degree: usize) -> [i128; 2] {
    let start = TABLE[degree % 90];
    (0..degree / 90).fold(start, |direction, _| quarter_turn(direction))
}

/// SCOPE 7.4: the four quadrants, each with the axis that it starts from. a = b = 0 is in none.
pub fn quadrant([a, b]: [i128; 2]) -> Option<usize> {
    let quadrants = [
        a > 0 && b >= 0,
        b > 0 && a <= 0,
        a < 0 && b <= 0,
        b < 0 && a >= 0,
    ];
    quadrants.iter().position(|&lies_in| lies_in)
}

/// SCOPE 7.4: the degrees that a colour has reached or passed. It has passed every degree of the
/// quadrants before its own, and none of those after it; in its own it has reached or passed a
/// direction exactly if the cross is not negative. What lies in no quadrant has passed none.
pub fn passed(colour: Colour) -> impl DoubleEndedIterator<Item = usize> {
    let plane = plane(colour);
    let own = quadrant(plane);
    // None counts as less than any quadrant
    (0..360).filter(move |&degree| match Some(degree / 90).cmp(&own) {
        Ordering::Less => true,
        Ordering::Equal => cross(direction(degree), plane) >= 0,
        Ordering::Greater => false,
    })
}

/// SCOPE 7.4: the greatest of them. At a = b = 0 it is 0.
pub fn hue_angle(colour: Colour) -> u32 {
    passed(colour).next_back().unwrap_or(0) as u32
}

pub fn check() {
    table_values();
    table_rule();
    axes();
    whole_degrees();
    between_degrees();
}

/// Values that are known without a series.
fn table_values() {
    for (degree, cosine, sine) in [
        (0, 100_000_000, 0),
        (1, 99_984_770, 1_745_241),
        (30, 86_602_540, 50_000_000),
        (45, 70_710_678, 70_710_678),
        (60, 50_000_000, 86_602_540),
        (89, 1_745_241, 99_984_770),
        (90, 0, 100_000_000),
    ] {
        assert_eq!(TABLE[degree], [cosine, sine], "{degree}");
    }
    for degree in 0..=90 {
        let [cosine, sine] = TABLE[90 - degree];
        assert_eq!(TABLE[degree], [sine, cosine], "{degree}");
    }
}

/// SCOPE 7.4: the sine rises, the cosine falls, and the squares of a pair sum to 1 within 0.00000003.
fn table_rule() {
    for pair in TABLE.windows(2) {
        assert!(pair[0][0] > pair[1][0] && pair[0][1] < pair[1][1]);
    }
    for [cosine, sine] in TABLE {
        let beyond = cosine * cosine + sine * sine - 10_i128.pow(16);
        assert!(beyond.abs() <= 300_000_000, "{cosine}, {sine}");
    }
}

/// An angle, of a colour with these a* and b*, in units.
fn is(a: i64, b: i64, angle: u32) {
    assert_eq!(hue_angle([50 * GRID_ONE, a, b]), angle, "({a}, {b})");
}

/// A colour on an axis has 0, 90, 180 or 270, and a unit to either side it lies before it or after it.
fn axes() {
    is(0, 0, 0);
    for far in [2, 57, 58, 100, GRID_ONE, SIDE - 1, SIDE] {
        for (axis, [a, b]) in [(0, [1, 0]), (90, [0, 1]), (180, [-1, 0]), (270, [0, -1])] {
            is(a, b, axis);
            is(far * a, far * b, axis);
        }
    }
    // the arctangent of 1/58 is less than a degree, and that of 1/57 is more
    for far in [58, GRID_ONE, SIDE] {
        for (a, b, angle) in [
            (far, 1, 0),
            (far, -1, 359),
            (1, far, 89),
            (-1, far, 90),
            (-far, 1, 179),
            (-far, -1, 180),
            (-1, -far, 269),
            (1, -far, 270),
        ] {
            is(a, b, angle);
        }
    }
    is(57, 1, 1);
    is(57, -1, 358);
}

/// Colours that lie on a direction exactly, at 45 degrees and at 30, and a unit to either side.
fn whole_degrees() {
    // the arctangent of 29/30 is more than 44 degrees
    for far in [30, GRID_ONE, SIDE - 1, SIDE] {
        is(far, far, 45);
        is(far, far - 1, 44);
        is(far - 1, far, 45);
        is(-far, far, 135);
        is(-far, -far, 225);
        is(far, -far, 315);
    }
    // 86602540 and 50000000 have 20 in common
    for times in [1, 2, 20, 60] {
        let [a, b] = [4_330_127 * times, 2_500_000 * times];
        is(a, b, 30);
        is(a, b - 1, 29);
        is(a + 1, b, 29);
        is(-b, a, 120);
        is(-b + 1, a, 119);
        is(-a, -b, 210);
        is(b, -a, 300);
        is(b, a, 60);
        is(b + 1, a, 59);
    }
}

/// A degree is not rounded to the nearest: 53.13 and 26.57, each in all four quadrants.
fn between_degrees() {
    for ([a, b], angle) in [([3, 4], 53), ([2, 1], 26)] {
        is(a, b, angle);
        is(-b, a, angle + 90);
        is(-a, -b, angle + 180);
        is(b, -a, angle + 270);
    }
}
