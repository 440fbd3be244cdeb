//! The semi-axes of CMC (SCOPE 6.2, lines 3 to 7), from the reference alone.

use super::conversion::Colour;
use super::sheet::{at, chroma, down, one, root};
use super::turn::plane;

/// SCOPE 6.2, line 3: SL = 0.040975L/(1 + 0.01765L), or 0.511 if L < 16.
pub fn sl(n: u32, [l, _, _]: Colour) -> i128 {
    let l = at(n, l);
    if l < 16 * one(n) {
        down(511 * one(n), 1_000)
    } else {
        down(one(n) * 40_975 * l, 1_000_000 * one(n) + 17_650 * l)
    }
}

/// SCOPE 6.2, line 4: SC = 0.0638C/(1 + 0.0131C) + 0.638, the whole of it as one fraction.
pub fn sc(n: u32, reference: Colour) -> i128 {
    let c = chroma(n, reference);
    let below = 10_000 * one(n) + 131 * c;
    down(one(n) * (638 * 1_000 * c + 638 * below), 1_000 * below)
}

/// Both sums of line 6, 10^8 times as large: exact.
pub fn form_sums([_, a, b]: Colour) -> [i128; 2] {
    let (a, b) = (i128::from(a), i128::from(b));
    [
        -27_563_736 * a - 96_126_170 * b,
        -25_881_905 * a - 96_592_583 * b,
    ]
}

/// SCOPE 6.2, line 6: second form if -0.27563736a - 0.96126170b > 0 or
/// -0.25881905a - 0.96592583b > 0, both sums exact.
pub fn second_form(reference: Colour) -> bool {
    form_sums(reference).into_iter().any(|sum| sum > 0)
}

/// What lines 5 to 7 form on the way to SH. Q and W are in units of 2^-(n-7), the others of 2^-n.
pub struct Hue {
    pub q: i128,
    pub w: i128,
    pub f: i128,
    pub t: i128,
    pub p: i128,
    pub g: i128,
}

/// SCOPE 6.2, line 6: first, T = 0.36 + 0.4·|0.81915204a - 0.57357644b|/C; second, T = 0.56 +
/// 0.2·|0.97814760a + 0.20791169b|/C, each of them as one fraction. C is line 1's.
fn t(n: u32, reference: Colour) -> i128 {
    let c = chroma(n, reference);
    let (a, b) = (at(n, reference[1]), at(n, reference[2]));
    // Over 10^9 C: the tenths of 0.4 and of 0.2, and eight places of a cosine.
    let top = if second_form(reference) {
        560_000_000 * c + 2 * (97_814_760 * a + 20_791_169 * b).abs()
    } else {
        360_000_000 * c + 4 * (81_915_204 * a - 57_357_644 * b).abs()
    };
    down(one(n) * top, 1_000_000_000 * c)
}

/// SCOPE 6.2, line 5: in units of 2^-(n-7): Q = a² + b², then W = root of (Q² + 1900). In units of
/// 2^-n: F = Q/W. Q is rounded down from the exact sum, not from C. Line 7: P = F·T, G = P + 1 - F.
/// If a = b = 0, T isn't formed.
pub fn hue(n: u32, reference: Colour) -> Option<Hue> {
    if plane(reference) == [0, 0] {
        return None;
    }
    let (a, b) = (at(n, reference[1]), at(n, reference[2]));
    let coarse = one(n - 7);
    // a and b are in units of 2^-n, so a² + b² is in units of 2^-2n
    let q = down(a * a + b * b, one(2 * n) / coarse);
    let w = root(q * q + 1900 * coarse * coarse);
    let f = down(q * one(n), w);
    let t = t(n, reference);
    let p = down(f * t, one(n));
    let g = p + one(n) - f;
    Some(Hue { q, w, f, t, p, g })
}

/// SCOPE 6.2, line 7: SH = SC·G, or SC if a = b = 0.
pub fn sh(n: u32, reference: Colour) -> i128 {
    let sc = sc(n, reference);
    match hue(n, reference) {
        None => sc,
        Some(hue) => down(sc * hue.g, one(n)),
    }
}
