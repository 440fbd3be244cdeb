//! Readings become whole numbers (SCOPE 3), and whole numbers the floats that are handed back.

use super::conversion::Colour;
use super::numbers::{nearest, MILLION, ONE};
use super::refusals::{Answer, NOT_A_NUMBER, OUT_OF_RANGE};
use Quantity::{Lightness, Opponent, Tristimulus};

/// The parts of an f64's bits.
pub const SIGN: u64 = 1 << 63;
pub const FRACTION: u64 = (1 << 52) - 1;
pub const INFINITY: u64 = 0x7ff << 52;

/// One and the ends of L* and of a*, b*, in units of the grid.
pub const GRID_ONE: i64 = ONE as i64;
pub const LIGHTEST: i64 = 120 * GRID_ONE;
pub const SIDE: i64 = 256 * GRID_ONE;

#[derive(Clone, Copy)]
pub enum Quantity {
    Tristimulus,
    Lightness,
    Opponent,
}

impl Quantity {
    /// SCOPE 3.1: X, Y, Z from 0 to 150. SCOPE 3.2: L* from 0 to 120, a*, b* from -256 to 256.
    fn highest(self) -> u128 {
        match self {
            Tristimulus => 150,
            Lightness => 120,
            Opponent => 256,
        }
    }

    fn may_be_negative(self) -> bool {
        matches!(self, Opponent)
    }

    /// X, Y and Z are kept as millionths (SCOPE 3.1), the others on the grid (SCOPE 3.2).
    fn units_in_one(self) -> u128 {
        match self {
            Tristimulus => MILLION,
            Lightness | Opponent => ONE,
        }
    }
}

/// A value that nothing has rounded: the magnitude top / bottom, with a minus before it or not.
pub struct Exact {
    minus: bool,
    top: u128,
    bottom: u128,
}

/// The exact value of an f64, or none if it is not-a-number or infinite.
pub fn exact_float(bits: u64) -> Option<Exact> {
    let field = ((bits >> 52) & 0x7ff) as i32;
    if field == 0x7ff {
        return None;
    }
    // Subnormal numbers have no leading one, and the exponent of the smallest normal ones.
    let leading = if field == 0 { 0 } else { 1 << 52 };
    let significand = u128::from(bits & FRACTION) + leading;
    // The magnitude is significand * 2^power. Beyond these two limits of the power all numbers but
    // zero act alike: below 2^-47 they are far less than half a unit, from 2^60 on they are
    // outside every range.
    let power = (field.max(1) - 1075).clamp(-100, 60);
    Some(Exact {
        minus: bits & SIGN != 0,
        top: significand << power.max(0),
        bottom: 1 << (-power).max(0),
    })
}

/// A decimal's exact value: its digits as millionths.
pub fn exact_decimal(minus: bool, millionths: u64) -> Exact {
    Exact {
        minus,
        top: u128::from(millionths),
        bottom: MILLION,
    }
}

/// SCOPE 3.4: the range is tested on the exact value, before rounding. SCOPE 3.1, 3.2: the nearest
/// whole number of units, a tie away from zero; -0.0 is zero. SCOPE 9.2: a decimal's exact value is
/// read by the same rounding as a float's.
pub fn units(quantity: Quantity, value: &Exact) -> Answer<i64> {
    let over = value.top > quantity.highest() * value.bottom;
    let under = value.minus && value.top > 0 && !quantity.may_be_negative();
    if over || under {
        return Err(OUT_OF_RANGE);
    }
    let magnitude = nearest(value.top * quantity.units_in_one(), value.bottom) as i64;
    Ok(if value.minus { -magnitude } else { magnitude })
}

pub fn reading_units(quantity: Quantity, bits: u64) -> Answer<i64> {
    units(quantity, &exact_float(bits).ok_or(NOT_A_NUMBER)?)
}

/// SCOPE 8.2: 5 for any of the three, then 6 for any of them, whichever comes first among the three.
pub fn three_units(quantities: [Quantity; 3], readings: [u64; 3]) -> Answer<[i64; 3]> {
    let answers = [0, 1, 2].map(|place: usize| reading_units(quantities[place], readings[place]));
    for number in [NOT_A_NUMBER, OUT_OF_RANGE] {
        if answers.contains(&Err(number)) {
            return Err(number);
        }
    }
    Ok(answers.map(|answer| answer.expect("none of the three is refused")))
}

/// SCOPE 3.2, for a colour that is already in units.
pub fn on_grid(colour: Colour) -> Answer<Colour> {
    for (quantity, units) in [Lightness, Opponent, Opponent].into_iter().zip(colour) {
        let over = u128::from(units.unsigned_abs()) > quantity.highest() * ONE;
        if over || (units < 0 && !quantity.may_be_negative()) {
            return Err(OUT_OF_RANGE);
        }
    }
    Ok(colour)
}

/// SCOPE 3.5: handed back as f64, each exactly its units divided by 2^20, zero as +0.0. Up to 2^53
/// every unit is held exactly.
pub fn handed_back(units: i64) -> u64 {
    let sign = if units < 0 { SIGN } else { 0 };
    sign | float_near(u128::from(units.unsigned_abs()), ONE)
}

/// The bits of the f64 nearest to top / bottom, for a quotient that is 0 or lies from 2^-60 to
/// 2^52.
pub fn float_near(top: u128, bottom: u128) -> u64 {
    if top == 0 {
        return 0;
    }
    // The shift that gives the quotient 53 binary digits, or one that is too small by 1.
    let shift = 52 + top.leading_zeros() - bottom.leading_zeros();
    let shift = if (top << shift) / bottom < 1 << 52 {
        shift + 1
    } else {
        shift
    };
    let significand = nearest(top << shift, bottom) as u64;
    // Added, not joined: a significand that was rounded up to 2^53 has to raise the exponent.
    (u64::from(1023 + 52 - shift) << 52) + (significand - (1 << 52))
}

/// The float nearest to so many millionths.
pub fn millionths(count: u128) -> u64 {
    float_near(count, MILLION)
}
