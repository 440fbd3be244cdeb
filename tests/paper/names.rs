//! The names of a shift (SCOPE 7).

use super::conversion::Colour;
use super::sheet::{verdict, Sheet, PLACES};
use super::turn::{cross, dot, plane, turn, Turn};

#[derive(Clone, Copy, PartialEq, Eq, Debug)]
pub enum LightnessName {
    Lighter,
    Darker,
    Equal,
}

/// SCOPE 7.1: lighter, darker, equal, by the sign of ΔL.
pub fn lightness_name(sheet: &Sheet) -> LightnessName {
    match sheet.delta_l.signum() {
        0 => LightnessName::Equal,
        1 => LightnessName::Lighter,
        _ => LightnessName::Darker,
    }
}

#[derive(Clone, Copy, PartialEq, Eq, Debug)]
pub enum ChromaName {
    More,
    Less,
    Equal,
}

/// SCOPE 7.1: more, less, equal, by the sign of ΔC, which is that of the two rounded C.
pub fn chroma_name(sheet: &Sheet) -> ChromaName {
    match sheet.delta_c.signum() {
        0 => ChromaName::Equal,
        1 => ChromaName::More,
        _ => ChromaName::Less,
    }
}

#[derive(Clone, Copy, PartialEq, Eq, Debug)]
pub enum HueName {
    Redder,
    Yellower,
    Greener,
    Bluer,
}

/// SCOPE 7.2: the axes, 0 redder, 90 yellower, 180 greener, 270 bluer.
const AXES: [(HueName, [i128; 2]); 4] = [
    (HueName::Redder, [1, 0]),
    (HueName::Yellower, [0, 1]),
    (HueName::Greener, [-1, 0]),
    (HueName::Bluer, [0, -1]),
];

/// The quarter of a full turn in which a turn that way from one direction meets another: 0 from 0
/// degrees to below 90, 1 from 90 to below 180, and so on.
fn quarter(way: Turn, from: [i128; 2], to: [i128; 2]) -> u32 {
    // Going clockwise is going anticlockwise in a mirror, which turns the sign of the cross.
    let cross = match way {
        Turn::Plus => cross(from, to),
        Turn::Minus => -cross(from, to),
    };
    let dot = dot(from, to);
    if dot > 0 && cross >= 0 {
        0
    } else if cross > 0 {
        1
    } else if dot < 0 {
        2
    } else {
        3
    }
}

/// SCOPE 7.2: turn from the reference, anticlockwise for plus and clockwise for minus; the first
/// axis met gives the name, the next the bracket. The axis the reference stands on is not met. None
/// is equal in hue.
pub fn hue_name(reference: Colour, test: Colour) -> Option<[HueName; 2]> {
    let way = turn(reference, test)?;
    let reference = plane(reference);
    let stands_on = |axis| cross(reference, axis) == 0 && dot(reference, axis) > 0;
    // The axes lie a quarter apart, so each is met in a quarter of its own.
    let mut axes = AXES;
    axes.sort_by_key(|&(_, axis)| quarter(way, reference, axis));
    let mut met = axes.into_iter().filter(|&(_, axis)| !stands_on(axis));
    let mut next = || met.next().map(|(name, _)| name);
    Some([next()?, next()?])
}

/// SCOPE 7.3: the specimen has a² + b² at most 16, tested exactly.
pub fn achromatic(specimen: Colour) -> bool {
    let specimen = plane(specimen);
    dot(specimen, specimen) <= 16 << 40
}

/// Lightness, chroma, hue, its bracket and the verdict as numbers: each counted from 1 in the order
/// of its list above. Equal in hue comes after the four axes; it has no bracket, which is 0.
pub fn words(sheet: &Sheet, tolerance: i128, reference: Colour, test: Colour) -> [u32; 5] {
    let [hue, bracket] =
        hue_name(reference, test).map_or([5, 0], |names| names.map(|name| 1 + name as u32));
    [
        1 + lightness_name(sheet) as u32,
        1 + chroma_name(sheet) as u32,
        hue,
        bracket,
        1 + verdict(PLACES, sheet.de, tolerance) as u32,
    ]
}
