//! Tickets, right and damaged, each with the answer of the paper, which tests/paper works
//! out. replay.c replays them.
//!
//! Usage: ticket-answers | ticket
//!
//! A record, its numbers little-endian:
//!
//!     u32  length of the text, length of what is printed, number of calls, wrong line
//!     u8   what is handed back (tests/paper/handed.rs), 88 of them; the text; what is printed
//!     u64  for each call: length of the lent room, column, number that the call answers
//!
//! The last record has u32::MAX for the length of its text and the number of the records before it
//! for that of what is printed, so a list that was cut short is noticed. What the list holds is told
//! on standard error.

mod bytes;
mod damage;
mod drafts;
mod forms;
mod lines;
mod readings;
mod records;
mod right;
mod seen;
#[path = "../shared/mod.rs"]
mod shared;

use shared::{aimed, grey, list, paper, random};

fn main() {
    paper::check();
    let mut tickets = records::Tickets::open();
    for _ in 0..115_000 {
        right::right(&mut tickets);
        damage::damaged(&mut tickets);
    }
    right::refusals(&mut tickets);
    right::tolerance_ends(&mut tickets);
    right::weightings(&mut tickets);
    right::printed_ends(&mut tickets);
    right::achromatic_ends(&mut tickets);
    damage::others(&mut tickets);
    tickets.end();
}
