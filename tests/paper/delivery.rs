//! A delivery with no standard (SCOPE 13): the mean of its cones, how far each lies from it, and the
//! farthest.

use super::conversion::{white_numbered, Colour};
use super::numbers::nearest;
use super::readings::handed_back;
use super::refusals::{Answer, WRONG_COUNT};
use super::settings::{factor, Formula};
use super::sheet::{sheet, PLACES};
use super::station::Reading;
use super::ticket::Space;

/// SCOPE 13.1: a delivery is 2 to 256 cones.
pub const FEWEST: usize = 2;
pub const MOST: usize = 256;

/// What a sort is given. A slice holds floats, by their bits.
#[derive(Clone, PartialEq, Eq, Debug)]
pub struct Sort {
    pub white: u32,
    pub l: u32,
    pub c: u32,
    pub space: Space,
    /// of X, Y and Z, or of L*, a* and b*
    pub readings: [Vec<u64>; 3],
    /// what the result slice holds before the call
    pub results: Vec<u64>,
}

/// A refusal, and the number of the cone that is refused: 0 where it is none's.
#[derive(Clone, Copy, PartialEq, Eq, Debug)]
pub struct Refused {
    pub number: u32,
    pub cone: usize,
}

/// What a sort works out, in units of the grid.
#[derive(Clone, PartialEq, Eq, Debug)]
pub struct Figures {
    pub colours: Vec<Colour>,
    pub mean: Colour,
    pub differences: Vec<i64>,
    pub farthest: usize,
}

pub type Sorted = Result<Figures, Refused>;

fn of_no_cone(number: u32) -> Refused {
    Refused { number, cone: 0 }
}

/// SCOPE 13.2: the sum of the grid units divided by the count, to the nearest unit, a tie away from
/// zero; L*, a* and b* each by itself.
fn mean(colours: &[Colour]) -> Colour {
    [0, 1, 2].map(|place: usize| {
        let sum: i64 = colours.iter().map(|colour| colour[place]).sum();
        let magnitude = nearest(sum.unsigned_abs().into(), colours.len() as u128);
        sum.signum() * magnitude as i64
    })
}

impl Sort {
    /// SCOPE 13.1: the three have one length, which is the count of cones, and the result slice is
    /// not shorter; otherwise, or with another count, 11.
    fn count(&self) -> Answer<usize> {
        let [count, second, third] = self.lengths();
        let one_length = count == second && count == third;
        if one_length && (FEWEST..=MOST).contains(&count) && self.results.len() >= count {
            Ok(count)
        } else {
            Err(WRONG_COUNT)
        }
    }

    pub fn lengths(&self) -> [usize; 3] {
        [0, 1, 2].map(|place: usize| self.readings[place].len())
    }

    /// SCOPE 13.1: cone i is entry i of each of the three.
    pub fn cone(&self, number: usize) -> Reading {
        Reading {
            space: self.space,
            bits: [0, 1, 2].map(|place: usize| self.readings[place][number]),
        }
    }

    /// SCOPE 13.5: 11; 2; 3 for l; 3 for c; then each cone in turn.
    fn colours(&self) -> Result<Vec<Colour>, Refused> {
        let count = self.count().map_err(of_no_cone)?;
        white_numbered(self.white).map_err(of_no_cone)?;
        factor(self.l.into()).map_err(of_no_cone)?;
        factor(self.c.into()).map_err(of_no_cone)?;
        let mut colours = Vec::new();
        for cone in 0..count {
            let colour = self.cone(cone).place(self.white);
            colours.push(colour.map_err(|number| Refused { number, cone })?);
        }
        Ok(colours)
    }

    /// SCOPE 13.3: the sheet's DE under CMC, with the mean as the reference and the cone as the test
    /// specimen.
    fn difference(&self, mean: Colour, cone: Colour) -> i64 {
        let factors = [self.l.into(), self.c.into()];
        let de = sheet(PLACES, Formula::Cmc, factors, mean, cone).de;
        de.try_into().expect("at 20 places an i64 holds it")
    }

    pub fn sorted(&self) -> Sorted {
        let colours = self.colours()?;
        let mean = mean(&colours);
        let differences: Vec<i64> = colours
            .iter()
            .map(|&cone| self.difference(mean, cone))
            .collect();
        // SCOPE 13.3: the greatest DE, and the lowest number if several have it
        let greatest = differences.iter().max();
        let farthest = differences.iter().position(|de| Some(de) == greatest);
        Ok(Figures {
            colours,
            mean,
            farthest: farthest.expect("one of them is the greatest"),
            differences,
        })
    }

    /// SCOPE 13.4: what the result slice holds after the call.
    pub fn results_after(&self, sorted: &Sorted) -> Vec<u64> {
        let mut results = self.results.clone();
        if let Ok(figures) = sorted {
            for (entry, &de) in results.iter_mut().zip(&figures.differences) {
                *entry = handed_back(de);
            }
        }
        results
    }

    /// All refusals that apply, in the order of SCOPE 13.5. Where the three slices differ in length,
    /// a cone is what all three have an entry for.
    pub fn faults(&self) -> Vec<Refused> {
        let factors = [self.l, self.c].map(|value| factor(value.into()).err());
        let settings = [
            self.count().err(),
            white_numbered(self.white).err(),
            factors[0].or(factors[1]),
        ];
        let mut faults: Vec<Refused> = settings.into_iter().flatten().map(of_no_cone).collect();
        let [first, second, third] = self.lengths();
        for cone in 0..first.min(second).min(third) {
            let numbers = self.cone(cone).faults(self.white);
            faults.extend(numbers.into_iter().map(|number| Refused { number, cone }));
        }
        faults
    }
}

/// SCOPE 13.4: number, cone, the mean's L*, a*, b* as f64, farthest, cones, without padding. On a
/// refusal every field is 0 but its number and its cone's.
pub fn handed(sorted: &Sorted) -> Vec<u8> {
    let [number, cone] = match sorted {
        Ok(_) => [0, 0],
        Err(refused) => [refused.number, refused.cone as u32],
    };
    let (mean, [farthest, cones]) = match sorted {
        Ok(figures) => (figures.mean, [figures.farthest, figures.colours.len()]),
        Err(_) => ([0; 3], [0; 2]),
    };
    let mut bytes = Vec::with_capacity(40);
    bytes.extend([number, cone].into_iter().flat_map(u32::to_le_bytes));
    bytes.extend(mean.map(handed_back).into_iter().flat_map(u64::to_le_bytes));
    for count in [farthest, cones] {
        bytes.extend((count as u32).to_le_bytes());
    }
    bytes
}
