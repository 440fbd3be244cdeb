//! Runs of calls as a host in C makes them, each call with the answer of the paper, which
//! tests/paper works out. replay.c replays them.
//!
//! Usage: station-answers | station
//!
//! A run has two stations, and a call takes one of them or none. A record is 240 bytes, then the
//! text of a ticket, then the report. Every number is little-endian:
//!
//!     kind (0 a run starts, 1 load X Y Z, 2 load L a b, 3 judge X Y Z, 4 judge L a b, 5 ticket,
//!     6 the end), refusal, station (0 or 1), length of its slice, length of the room, column,
//!     length of the text, length of the report: 8 bytes each
//!     formula, white, l, c, tolerance, 0: 4 bytes each
//!     the three readings: 8 bytes each
//!     what each station holds after the call, or where a run starts: 20 bytes each
//!     what the call hands back, its room and a load's slice apart (tests/paper/handed.rs): 88 bytes
//!
//! The last record has the number of calls for its refusal and the number of runs for its station,
//! so a list that was cut short is noticed.

mod calls;
mod figures;
mod host;
mod readings;
mod runs;
mod seen;
#[path = "../shared/mod.rs"]
mod shared;
mod tickets;

use shared::{aimed, grey, list, paper, random};

fn main() {
    paper::check();
    let mut host = host::Host::open();
    host.each_field();
    host.each_length();
    host.each_room();
    host.each_figure();
    while host.calls < 2_000_000 {
        host.any_run();
    }
    host.end();
}
