//! Whites (SCOPE 4), and the way from X, Y, Z to the grid (SCOPE 5).

use super::numbers::{greatest, MILLION, ONE};
use super::readings::three_units;
use super::readings::Quantity::{Lightness, Opponent, Tristimulus};
use super::refusals::{Answer, BEYOND_256, WRONG_WHITE};

/// L*, a*, b* in units of the grid.
pub type Colour = [i64; 3];

/// SCOPE 4, from BS 6923, Table 1: Xn, Yn, Zn in millionths.
pub const WHITES: [[u128; 3]; 4] = [
    [94_811_000, 100_000_000, 107_304_000],
    [95_047_000, 100_000_000, 108_883_000],
    [97_285_000, 100_000_000, 116_145_000],
    [98_074_000, 100_000_000, 118_232_000],
];

/// SCOPE 8.1: refusal 2 if the number is not 1 to 4.
pub fn white_numbered(number: u32) -> Answer<[u128; 3]> {
    match number {
        1..=4 => Ok(WHITES[number as usize - 1]),
        _ => Err(WRONG_WHITE),
    }
}

/// SCOPE 5: q is the exact fraction X/Xn; this is q > 0.008856.
pub fn above_cut(x: u128, xn: u128) -> bool {
    x * MILLION > 8856 * xn
}

/// SCOPE 5: if q > 0.008856, f is the greatest whole number whose cube is at most q times 2^60.
/// Otherwise f is 2^20 times (7.787q + 16/116), rounded down once.
pub fn f(x: u128, xn: u128) -> i64 {
    let whole = if above_cut(x, xn) {
        greatest(1 << 21, |root| root * root * root * xn <= x << 60)
    } else {
        ONE * (7787 * 116 * x + 16 * 1000 * xn) / (1000 * 116 * xn)
    };
    whole as i64
}

/// SCOPE 5: L* = 116fy - 16 times 2^20 if Y/Yn > 0.008856; otherwise 2^20 times 903.3 Y/Yn, rounded
/// down.
pub fn lightness(y: u128, yn: u128) -> i64 {
    if above_cut(y, yn) {
        116 * f(y, yn) - 16 * ONE as i64
    } else {
        (ONE * 9033 * y / (10 * yn)) as i64
    }
}

/// SCOPE 5: a* = 500(fx - fy), b* = 200(fy - fz); if a* or b* then lies beyond 256, the colour is
/// refused.
pub fn grid_colour(xyz: [u128; 3], white: [u128; 3]) -> Answer<Colour> {
    let [fx, fy, fz] = [0, 1, 2].map(|place: usize| f(xyz[place], white[place]));
    let (a, b) = (500 * (fx - fy), 200 * (fy - fz));
    let limit = 256 * ONE as i64;
    if a.abs() > limit || b.abs() > limit {
        return Err(BEYOND_256);
    }
    Ok([lightness(xyz[1], white[1]), a, b])
}

pub fn place_xyz(white: u32, readings: [u64; 3]) -> Answer<Colour> {
    let white = white_numbered(white)?;
    let xyz = three_units([Tristimulus; 3], readings)?;
    grid_colour(xyz.map(|millionths| millionths as u128), white)
}

pub fn place_lab(white: u32, readings: [u64; 3]) -> Answer<Colour> {
    white_numbered(white)?;
    three_units([Lightness, Opponent, Opponent], readings)
}
