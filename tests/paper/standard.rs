//! What a judgement is made with, and a ticket as a load and a judgement (SCOPE 9.4).

use super::conversion::{grid_colour, Colour, WHITES};
use super::names::achromatic;
use super::readings::{exact_decimal, units};
use super::refusals::Answer;
use super::settings::{factor, tolerance, Formula};
use super::sheet::{self, Sheet, PLACES};
use super::ticket::{Decimal, Space, Ticket};

/// What a judgement is made with: all of it accepted, l, c and the tolerance in thousandths, the
/// reference on the grid.
#[derive(Clone, Copy, PartialEq, Eq, Debug)]
pub struct Standard {
    pub formula: Formula,
    pub white: u32,
    pub l: u64,
    pub c: u64,
    pub tolerance: u64,
    pub colour: Colour,
}

impl Standard {
    pub fn sheet(&self, test: Colour) -> Sheet {
        let factors = [self.l.into(), self.c.into()];
        sheet::sheet(PLACES, self.formula, factors, self.colour, test)
    }

    /// SCOPE 10.4: under CMC, where the reference or the test specimen is achromatic.
    pub fn withholds(&self, test: Colour) -> bool {
        self.formula == Formula::Cmc && [self.colour, test].into_iter().any(achromatic)
    }
}

/// One reading's place on the grid. A decimal is a number, so 5 cannot come; 6 for any of the three
/// comes before 8.
pub fn place(space: Space, white: u32, reading: [Decimal; 3]) -> Answer<Colour> {
    let mut placed = [0; 3];
    for (place, quantity) in space.quantities().into_iter().enumerate() {
        let Decimal { minus, millionths } = reading[place];
        placed[place] = units(quantity, &exact_decimal(minus, millionths))?;
    }
    match space {
        Space::Xyz => {
            let white = WHITES[white as usize - 1];
            grid_colour(placed.map(|millionths| millionths as u128), white)
        }
        Space::Lab => Ok(placed),
    }
}

/// SCOPE 8.2: 3 for l, 3 for c, 4, the reference's, the test specimen's. 9 cannot come from a ticket,
/// and 1 and 2 would be wrong words in its text.
pub fn accepted(ticket: &Ticket) -> Answer<(Standard, Colour)> {
    factor(ticket.l)?;
    factor(ticket.c)?;
    tolerance(ticket.tolerance)?;
    let place = |reading| place(ticket.space, ticket.white, reading);
    let colour = place(ticket.reference)?;
    let test = place(ticket.test)?;
    let standard = Standard {
        formula: ticket.formula,
        white: ticket.white,
        l: ticket.l,
        c: ticket.c,
        tolerance: ticket.tolerance,
        colour,
    };
    Ok((standard, test))
}
