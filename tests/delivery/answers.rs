//! Deliveries to sort, each with the answer of the paper, which tests/paper works out. replay.c
//! replays them.
//!
//! Usage: delivery-answers | delivery
//!
//! A record, its numbers little-endian:
//!
//!     u64  kind (0 X Y Z, 1 L a b, 2 the end), counts of the three reading slices and of the result
//!          slice
//!     u32  white, l, c, 0
//!     u8   what is handed back (tests/paper/delivery.rs), 40 of them
//!     f64  the three reading slices, the result slice before the call, the result slice after it
//!
//! The last record has the number of the records before it for its first count, so a list that was
//! cut short is noticed. How much the list holds is told on standard error.

mod accepted;
mod counts;
mod kinds;
mod means;
mod numbers;
mod records;
mod refusals;
mod seen;
#[path = "../shared/mod.rs"]
mod shared;

use shared::{list, paper, random};

fn main() {
    paper::check();
    let mut deliveries = records::Deliveries::open();
    kinds::everywhere(&mut deliveries);
    kinds::tight(&mut deliveries);
    kinds::dark(&mut deliveries);
    kinds::far(&mut deliveries);
    kinds::grey(&mut deliveries);
    kinds::ends(&mut deliveries);
    means::ties(&mut deliveries);
    means::one_colour(&mut deliveries);
    means::mirrored(&mut deliveries);
    means::repeated(&mut deliveries);
    means::permuted(&mut deliveries);
    counts::each_count(&mut deliveries);
    counts::each_length(&mut deliveries);
    counts::each_result(&mut deliveries);
    refusals::settings(&mut deliveries);
    refusals::one_cone(&mut deliveries);
    refusals::two_cones(&mut deliveries);
    refusals::in_order(&mut deliveries);
    deliveries.end();
}
