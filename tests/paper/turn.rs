//! The turn from the reference to the test specimen (SCOPE 6.2, line 2), by which hue has its sign
//! and its name.

use super::conversion::Colour;

#[derive(Clone, Copy, PartialEq, Eq, Debug)]
pub enum Turn {
    Plus,
    Minus,
}

/// aR·bT - aT·bR, in units of the grid squared: exact.
pub fn cross([ar, br]: [i128; 2], [at, bt]: [i128; 2]) -> i128 {
    ar * bt - at * br
}

/// aR·aT + bR·bT, likewise.
pub fn dot([ar, br]: [i128; 2], [at, bt]: [i128; 2]) -> i128 {
    ar * at + br * bt
}

/// A colour's a* and b*.
pub fn plane([_, a, b]: Colour) -> [i128; 2] {
    [a.into(), b.into()]
}

/// SCOPE 6.2, line 2, the same for names (SCOPE 7.2): no turn if the cross is 0 and the dot not
/// negative; otherwise minus if the cross is negative, else plus. A straight half turn is plus.
pub fn turn(reference: Colour, test: Colour) -> Option<Turn> {
    let (reference, test) = (plane(reference), plane(test));
    match cross(reference, test) {
        0 if dot(reference, test) >= 0 => None,
        cross if cross < 0 => Some(Turn::Minus),
        _ => Some(Turn::Plus),
    }
}
