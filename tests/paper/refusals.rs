//! The refusal numbers of SCOPE 8.1.

/// An answer, or the number of its refusal.
pub type Answer<T> = Result<T, u32>;

pub const WRONG_FORMULA: u32 = 1;
pub const WRONG_WHITE: u32 = 2;
pub const WRONG_FACTOR: u32 = 3;
pub const WRONG_TOLERANCE: u32 = 4;
pub const NOT_A_NUMBER: u32 = 5;
pub const OUT_OF_RANGE: u32 = 6;
pub const WRONG_TEXT: u32 = 7;
pub const BEYOND_256: u32 = 8;
pub const NO_STANDARD: u32 = 9;
/// The lent room is shorter than the report, or the slice of a load is not a station's length.
pub const WRONG_LENGTH: u32 = 10;
/// A sort: the count of cones is not 2 to 256, or the slices do not have it.
pub const WRONG_COUNT: u32 = 11;
