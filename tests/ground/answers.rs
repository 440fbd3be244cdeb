//! Cases for the ground of the station: readings, decimals, whites, the way from X, Y, Z to the
//! grid, roots, and figures handed back. Each case comes with the answer of the paper, which
//! tests/paper works out. replay.c replays the cases.
//!
//! Usage: ground-answers | ground
//!
//! A line is a case. An f64 is written as the 16 hex digits of its bits; the figures of a refused
//! case are written as 0.
//!
//!     u QUANTITY BITS REFUSAL UNITS              a reading in units
//!     d QUANTITY BELOW MILLIONTHS REFUSAL UNITS  a decimal in units
//!     x WHITE BITS BITS BITS REFUSAL L A B       X, Y, Z placed on the grid
//!     l WHITE BITS BITS BITS REFUSAL L A B       L*, a*, b* placed on the grid
//!     s NUMBER ROOT                              a square root, rounded down
//!     c NUMBER ROOT                              a cube root, rounded down
//!     v UNITS BITS                               units handed back as f64
//!     e COUNT                                    the end: how many cases came before it
//!
//! QUANTITY is 1 for X, Y or Z, 2 for L*, any other number for a* or b*. BELOW is 0 for plus, any
//! other number for minus.

mod cases;
mod colours;
mod numbers;
mod readings;
#[path = "../shared/mod.rs"]
mod shared;

use shared::{list, paper, random};

fn main() {
    paper::check();
    let mut cases = cases::Cases::open();
    let mut random = random::Random(6923);
    readings::reading_cases(&mut cases, &mut random);
    readings::decimal_cases(&mut cases, &mut random);
    colours::xyz_cases(&mut cases, &mut random);
    colours::lab_cases(&mut cases, &mut random);
    numbers::root_cases(&mut cases, &mut random);
    numbers::value_cases(&mut cases, &mut random);
    cases.end();
}
