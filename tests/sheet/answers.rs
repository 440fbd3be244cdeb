//! Pairs of colours for the step sheet, the names and the verdict, each with the answer of the paper,
//! which tests/paper works out. replay.c replays them.
//!
//! Usage: sheet-answers | sheet
//!
//! A record is 30 numbers, each an i64, little-endian:
//!
//!     formula, l, c, tolerance, what the load answers, what the judgement after it answers,
//!     of the reference: L, a, b, C, SL, SC, SH,
//!     of the test specimen: L, a, b, C, DL, DC, DH, DE,
//!     lightness, chroma, hue, its bracket, verdict (`names::words` has their numbers),
//!     ΔL, ΔC, ΔH, how many lines of a report are withheld under CMC
//!
//! What is worked out is 0 where the call is refused that would tell it. The last record has -1 for
//! its formula and the number of the records before it for its l, so a list that was cut short is
//! noticed.

mod ends;
mod kinds;
mod numbers;
mod records;
mod refusals;
mod seen;
#[path = "../shared/mod.rs"]
mod shared;

use records::Pairs;
use shared::{aimed, grey, list, paper, random};

fn main() {
    paper::check();
    let mut pairs = Pairs::open();
    kinds::everywhere(&mut pairs);
    kinds::low_chroma(&mut pairs);
    kinds::axes(&mut pairs);
    ends::sector(&mut pairs);
    ends::achromatic_end(&mut pairs);
    ends::dark_end(&mut pairs);
    kinds::straight(&mut pairs);
    kinds::equal(&mut pairs);
    kinds::rounded_chroma(&mut pairs);
    ends::corners(&mut pairs);
    ends::tolerance_ends(&mut pairs);
    refusals::refusals(&mut pairs);
    pairs.end();
}
