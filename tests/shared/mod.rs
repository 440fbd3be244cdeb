//! What the programs that write lists share.

// Every program takes the part that it needs, and none takes all.
#![allow(dead_code)]

pub mod aimed;
pub mod grey;
pub mod list;
#[path = "../paper/mod.rs"]
pub mod paper;
pub mod random;
