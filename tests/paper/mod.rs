//! The rules of docs/SCOPE.md once more, in whole numbers and from the paper alone, so that they can
//! disagree with the proved code. The programs of the folders beside this one share them.
//!
//! "SCOPE 6.2, line 6" is line 6 of the step sheet, in section 6.2.

// Every program takes the part that it needs, and none takes all.
#![allow(dead_code)]

pub mod angle;
mod cases;
pub mod cmc;
pub mod conversion;
mod deliveries;
pub mod delivery;
pub mod handed;
pub mod names;
pub mod numbers;
pub mod program;
pub mod readings;
pub mod refusals;
mod refused;
pub mod report;
pub mod settings;
pub mod sheet;
pub mod standard;
pub mod station;
mod texts;
pub mod ticket;
pub mod turn;

/// The paper's own cases, and cases of its rules that need no working out. If a rule were read
/// wrongly, this stops it. Every program calls it first.
pub fn check() {
    angle::check();
    cases::check();
    texts::check();
    refused::check();
    deliveries::check();
    station::check_layout();
}
