//! The lines of the list.

use crate::list::List;
use crate::paper::readings::Quantity::{self, Lightness, Opponent, Tristimulus};
use crate::paper::refusals::Answer;
use crate::paper::{conversion, numbers, readings};

const QUANTITIES: [Quantity; 3] = [Tristimulus, Lightness, Opponent];

pub struct Cases {
    list: List,
    count: u64,
}

impl Cases {
    pub fn open() -> Cases {
        Cases {
            list: List::open(),
            count: 0,
        }
    }

    fn line(&mut self, line: String) {
        self.list.write(line.as_bytes());
        self.list.write(b"\n");
        self.count += 1;
    }

    pub fn end(mut self) {
        self.line(format!("e {}", self.count));
        self.list.close();
    }

    fn reading(&mut self, quantity: Quantity, bits: u64) {
        let (refusal, units) = figures(readings::reading_units(quantity, bits));
        self.line(format!(
            "u {} {bits:016x} {refusal} {units}",
            number(quantity, bits)
        ));
    }

    pub fn readings(&mut self, patterns: impl IntoIterator<Item = u64>) {
        for bits in patterns {
            for quantity in QUANTITIES {
                self.reading(quantity, bits);
            }
        }
    }

    fn decimal(&mut self, quantity: Quantity, minus: bool, millionths: u64) {
        let below = if minus {
            [1, 2, 256, u32::MAX][millionths as usize % 4]
        } else {
            0
        };
        let exact = readings::exact_decimal(minus, millionths);
        let (refusal, units) = figures(readings::units(quantity, &exact));
        self.line(format!(
            "d {} {below} {millionths} {refusal} {units}",
            number(quantity, millionths)
        ));
    }

    pub fn decimals(&mut self, magnitudes: impl IntoIterator<Item = u64>) {
        for millionths in magnitudes {
            for quantity in QUANTITIES {
                self.decimal(quantity, false, millionths);
                self.decimal(quantity, true, millionths);
            }
        }
    }

    pub fn xyz(&mut self, white: u32, readings: [u64; 3]) {
        self.colour('x', white, readings, conversion::place_xyz(white, readings));
    }

    pub fn lab(&mut self, white: u32, readings: [u64; 3]) {
        self.colour('l', white, readings, conversion::place_lab(white, readings));
    }

    fn colour(&mut self, kind: char, white: u32, [p, q, r]: [u64; 3], answer: Answer<[i64; 3]>) {
        let (refusal, [l, a, b]) = figures(answer);
        self.line(format!(
            "{kind} {white} {p:016x} {q:016x} {r:016x} {refusal} {l} {a} {b}"
        ));
    }

    pub fn square(&mut self, x: u64) {
        self.line(format!("s {x} {}", numbers::square_root(x.into())));
    }

    pub fn cube(&mut self, x: u64) {
        self.line(format!("c {x} {}", numbers::cube_root(x)));
    }

    pub fn value(&mut self, units: i64) {
        self.line(format!("v {units} {:016x}", readings::handed_back(units)));
    }

    pub fn values(&mut self, magnitudes: impl IntoIterator<Item = i64>) {
        for magnitude in magnitudes {
            self.value(magnitude);
            self.value(-magnitude);
        }
    }
}

/// The number that stands for the quantity in a call. a* and b* have every number but 1 and 2; `pick`
/// says which.
pub fn number(quantity: Quantity, pick: u64) -> u32 {
    match quantity {
        Tristimulus => 1,
        Lightness => 2,
        Opponent => [3, 0, 4, u32::MAX][pick as usize % 4],
    }
}

/// The refusal number and the figures that stand in a line: 0 for what is not there.
pub fn figures<T: Default>(answer: Answer<T>) -> (u32, T) {
    match answer {
        Ok(figures) => (0, figures),
        Err(number) => (number, T::default()),
    }
}
