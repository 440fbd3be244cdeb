//! Whole numbers: the nearest to a fraction, and roots rounded down.

/// SCOPE 3.2: one is 1,048,576 units of the grid.
pub const ONE: u128 = 1 << 20;
pub const MILLION: u128 = 1_000_000;

/// The whole number nearest to top / bottom. A tie goes up, which for a magnitude is away from
/// zero.
pub fn nearest(top: u128, bottom: u128) -> u128 {
    (2 * top + bottom) / (2 * bottom)
}

/// The greatest whole number below `end` that passes a test. 0 passes it, and no number above one
/// that fails does.
pub fn greatest(end: u128, passes: impl Fn(u128) -> bool) -> u128 {
    let (mut low, mut high) = (0, end);
    while high - low > 1 {
        let middle = (low + high) / 2;
        if passes(middle) {
            low = middle;
        } else {
            high = middle;
        }
    }
    low
}

pub fn square_root(x: u128) -> u128 {
    // A number of w binary digits has a root of (w + 1) / 2 of them.
    let digits = (129 - x.leading_zeros()) / 2;
    greatest(1 << digits, |root| root * root <= x)
}

pub fn cube_root(x: u64) -> u128 {
    greatest(1 << 22, |root| root * root * root <= u128::from(x))
}
