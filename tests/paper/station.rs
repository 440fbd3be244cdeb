//! The station's slice (SCOPE 1.4), what a load and a judgement come to, and every refusal of a call
//! that applies, in the one order (SCOPE 8.2).

use super::conversion::{place_lab, place_xyz, Colour};
use super::handed::Handed;
use super::readings::{on_grid, reading_units, LIGHTEST, SIDE};
use super::refusals::{Answer, BEYOND_256, NOT_A_NUMBER, NO_STANDARD, OUT_OF_RANGE};
use super::refusals::{WRONG_LENGTH, WRONG_TEXT, WRONG_WHITE};
use super::report::report;
use super::settings::{factor, formula_numbered, tolerance, Formula};
use super::standard::{place, Standard};
use super::ticket::{self, Space};

/// SCOPE 1.4: the bytes of the slice that the host lends.
pub const STATION: usize = 20;
pub type Slice = [u8; STATION];

#[derive(Clone, Copy, PartialEq, Eq, Debug)]
pub struct Reading {
    pub space: Space,
    pub bits: [u64; 3],
}

impl Reading {
    pub fn place(&self, white: u32) -> Answer<Colour> {
        match self.space {
            Space::Xyz => place_xyz(white, self.bits),
            Space::Lab => place_lab(white, self.bits),
        }
    }

    /// All of 5, 6 and 8 that apply, in this order. 8 asks for readings that are in range.
    pub fn faults(&self, white: u32) -> Vec<u32> {
        let quantities = self.space.quantities();
        let single = [0, 1, 2].map(|place: usize| {
            let units = reading_units(quantities[place], self.bits[place]);
            units.err()
        });
        let mut faults: Vec<u32> = [NOT_A_NUMBER, OUT_OF_RANGE].to_vec();
        faults.retain(|&number| single.contains(&Some(number)));
        if faults.is_empty() && self.place(white) == Err(BEYOND_256) {
            faults.push(BEYOND_256);
        }
        faults
    }
}

#[derive(Clone, Copy, PartialEq, Eq, Debug)]
pub struct Load {
    pub formula: u32,
    pub white: u32,
    pub l: u32,
    pub c: u32,
    pub tolerance: u32,
    pub reference: Reading,
}

impl Load {
    /// All refusals that apply, in the order of SCOPE 8.2.
    pub fn faults(&self, length: usize) -> Vec<u32> {
        let factors = [self.l, self.c].map(|value| factor(value.into()).err());
        let white = (1..=4).contains(&self.white);
        let mut faults = Vec::new();
        faults.extend(formula_numbered(self.formula).err());
        faults.extend((!white).then_some(WRONG_WHITE));
        faults.extend(factors[0].or(factors[1]));
        faults.extend(tolerance(self.tolerance.into()).err());
        faults.extend(self.reference.faults(self.white));
        faults.extend((length != STATION).then_some(WRONG_LENGTH));
        faults
    }

    /// The standard of a load that has no faults.
    pub fn standard(&self) -> Standard {
        Standard {
            formula: formula_numbered(self.formula).expect("a formula"),
            white: self.white,
            l: self.l.into(),
            c: self.c.into(),
            tolerance: self.tolerance.into(),
            colour: self.reference.place(self.white).expect("a colour"),
        }
    }
}

/// SCOPE 1.4: the accepted formula, white, l, c, tolerance and grid colour, in 1, 1, 2, 2, 2, 4, 4, 4
/// bytes.
pub fn encode(standard: &Standard) -> Slice {
    let mut slice = [0; STATION];
    slice[0] = 1 + standard.formula as u8;
    slice[1] = standard.white as u8;
    let words = [standard.l, standard.c, standard.tolerance];
    for (place, word) in words.into_iter().enumerate() {
        slice[2 + 2 * place..][..2].copy_from_slice(&(word as u16).to_le_bytes());
    }
    for (place, coordinate) in standard.colour.into_iter().enumerate() {
        slice[8 + 4 * place..][..4].copy_from_slice(&(coordinate as i32).to_le_bytes());
    }
    slice
}

/// SCOPE 1.4: a slice of another length, or with any of these outside its range, counts as no
/// standard loaded.
pub fn decode(slice: &[u8]) -> Option<Standard> {
    let slice: Slice = slice.try_into().ok()?;
    let word = |at: usize| u64::from(u16::from_le_bytes([slice[at], slice[at + 1]]));
    let coordinate = |at: usize| {
        let bytes = [slice[at], slice[at + 1], slice[at + 2], slice[at + 3]];
        i64::from(i32::from_le_bytes(bytes))
    };
    let standard = Standard {
        formula: formula_numbered(slice[0].into()).ok()?,
        white: slice[1].into(),
        l: word(2),
        c: word(4),
        tolerance: word(6),
        colour: [8, 12, 16].map(coordinate),
    };
    let in_range = (1..=4).contains(&standard.white)
        && factor(standard.l).is_ok()
        && factor(standard.c).is_ok()
        && tolerance(standard.tolerance).is_ok()
        && on_grid(standard.colour).is_ok();
    in_range.then_some(standard)
}

/// All refusals of a judgement that apply without regard to the room, in the order of SCOPE 8.2.
pub fn judge_faults(standard: Option<Standard>, reading: &Reading) -> Vec<u32> {
    let white = standard.map_or(1, |standard| standard.white);
    let mut faults = Vec::new();
    faults.extend(standard.is_none().then_some(NO_STANDARD));
    faults.extend(reading.faults(white));
    faults
}

/// The report, and what is handed back.
pub type Judged = (Vec<u8>, Handed);

pub fn judged(standard: Option<Standard>, reading: &Reading) -> Answer<Judged> {
    let standard = standard.ok_or(NO_STANDARD)?;
    let test = reading.place(standard.white)?;
    let handed = Handed::of_judgement(&standard, test);
    Ok((report(&standard, test), handed))
}

/// All refusals of a ticket that apply without regard to the room.
pub fn ticket_faults(words: &[u8]) -> Vec<u32> {
    let ticket = match ticket::parse(words) {
        Ok(ticket) => ticket,
        Err(_) => return vec![WRONG_TEXT],
    };
    let factors = [ticket.l, ticket.c].map(|value| factor(value).err());
    let places = [ticket.reference, ticket.test]
        .map(|reading| place(ticket.space, ticket.white, reading).err());
    let mut faults = Vec::new();
    faults.extend(factors[0].or(factors[1]));
    faults.extend(tolerance(ticket.tolerance).err());
    faults.extend(places.into_iter().flatten());
    faults
}

/// The layout of the 20 bytes, by a record written out by hand.
pub fn check_layout() {
    let standard = Standard {
        formula: Formula::Cmc,
        white: 4,
        l: 500,
        c: 10_000,
        tolerance: 258,
        colour: [LIGHTEST, -1, -SIDE],
    };
    let bytes = [
        3, 4, 0xf4, 1, 0x10, 0x27, 2, 1, 0, 0, 0x80, 7, 255, 255, 255, 255, 0, 0, 0, 0xf0,
    ];
    assert_eq!(encode(&standard), bytes);
    assert_eq!(decode(&bytes), Some(standard));
    assert_eq!(decode(&[0; STATION]), None);
    assert_eq!(decode(&bytes[..19]), None);
}
