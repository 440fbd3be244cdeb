//! What a load is given besides its reference (SCOPE 3.3), with the refusals 1, 3 and 4.

use super::refusals::{Answer, WRONG_FACTOR, WRONG_FORMULA, WRONG_TOLERANCE};

#[derive(Clone, Copy, PartialEq, Eq, Debug)]
pub enum Formula {
    Cielab,
    Cie94,
    Cmc,
}

/// SCOPE 8.1: refusal 1 if the number is not 1 CIELAB, 2 CIE94, 3 CMC.
pub fn formula_numbered(number: u32) -> Answer<Formula> {
    match number {
        1 => Ok(Formula::Cielab),
        2 => Ok(Formula::Cie94),
        3 => Ok(Formula::Cmc),
        _ => Err(WRONG_FORMULA),
    }
}

/// SCOPE 3.3: l and c are whole thousandths, 500 to 10,000.
pub fn factor(thousandths: u64) -> Answer<i128> {
    match thousandths {
        500..=10_000 => Ok(thousandths.into()),
        _ => Err(WRONG_FACTOR),
    }
}

/// SCOPE 3.3: the tolerance is whole thousandths, 100 to 10,000.
pub fn tolerance(thousandths: u64) -> Answer<i128> {
    match thousandths {
        100..=10_000 => Ok(thousandths.into()),
        _ => Err(WRONG_TOLERANCE),
    }
}
