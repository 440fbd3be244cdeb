//! What a ticket is to say, and its text.

use crate::paper::standard::accepted;
use crate::paper::ticket::{Decimal, Space, Ticket, FORMULAS, MISSING, SPACES, WHITES};
use crate::random::Random;
use crate::readings::{Reading, WIDEST};

/// What a ticket says: places in the tables of formulas, whites and spaces; thousandths; millionths.
#[derive(Clone, Copy)]
pub struct Draft {
    pub formula: usize,
    pub white: usize,
    pub factors: Option<[u64; 2]>,
    pub tolerance: u64,
    pub space: usize,
    pub reference: Reading,
    pub test: Reading,
}

impl Draft {
    pub fn ticket(&self) -> Ticket {
        let [l, c] = self.factors.unwrap_or(MISSING);
        let decimals = |reading: Reading| {
            reading.map(|number| Decimal {
                minus: number < 0,
                millionths: number.unsigned_abs(),
            })
        };
        Ticket {
            formula: FORMULAS[self.formula].0,
            white: WHITES[self.white].0,
            l,
            c,
            tolerance: self.tolerance,
            space: SPACES[self.space].0,
            reference: decimals(self.reference),
            test: decimals(self.test),
        }
    }
}

impl Random {
    /// A ticket that is mostly accepted, with a tolerance that is mostly not far from DE.
    pub fn ticket(&mut self) -> Draft {
        let (white, space) = (self.below(4) as usize, self.pick(&[0, 1, 1]));
        let reference = match SPACES[space].0 {
            Space::Xyz => self.xyz(white),
            Space::Lab => self.lab(),
        };
        let mut draft = Draft {
            formula: self.pick(&[0, 1, 2, 2]),
            white,
            factors: None,
            tolerance: 1_000,
            space,
            reference,
            test: self.test_for(SPACES[space].0, reference),
        };
        if !self.one_in(3) {
            draft.factors = Some([self.factor(), self.factor()]);
        }
        self.settle(&mut draft);
        draft
    }

    /// Gives a ticket that is accepted a tolerance.
    fn settle(&mut self, draft: &mut Draft) {
        draft.tolerance = match accepted(&draft.ticket()) {
            Ok((standard, test)) => self.tolerance_near(standard.sheet(test).de),
            Err(_) => 100 + self.below(9_901),
        };
    }

    /// Puts things out of range, as the bits of `wrong` say: l, c, tolerance, reference, test.
    pub fn put_out_of_range(&mut self, draft: &mut Draft, wrong: u64) {
        let is_wrong = |place: u64| wrong >> place & 1 == 1;
        let space = SPACES[draft.space].0;
        if is_wrong(0) || is_wrong(1) {
            let [l, c] = draft.factors.unwrap_or(MISSING);
            let l = if is_wrong(0) { self.wrong_factor() } else { l };
            let c = if is_wrong(1) { self.wrong_factor() } else { c };
            draft.factors = Some([l, c]);
        }
        if is_wrong(2) {
            draft.tolerance = self.wrong_tolerance();
        }
        if is_wrong(3) {
            draft.reference = self.beyond(space, draft.reference);
        }
        if is_wrong(4) {
            draft.test = self.beyond(space, draft.test);
        }
    }

    /// So many units of the last place, in any form: up to so many digits before the point and up
    /// to so many after it.
    fn written(&mut self, value: u64, before: u64, after: usize) -> String {
        let unit = 10_u64.pow(after as u32);
        let decimals = format!("{:0after$}", value % unit);
        let fewest = decimals.trim_end_matches('0').len();
        let shown = fewest + self.below((after - fewest) as u64 + 1) as usize;
        let point = if shown > 0 { "." } else { "" };
        let width = 1 + self.below(before) as usize;
        format!("{:0width$}{point}{}", value / unit, &decimals[..shown])
    }

    fn thousandths(&mut self, value: u64) -> String {
        self.written(value, 2, 3)
    }

    fn reading(&mut self, reading: Reading) -> String {
        let numbers = reading.map(|number| {
            let number = number.clamp(-WIDEST, WIDEST);
            let minus = number < 0 || (number == 0 && self.one_in(3));
            let magnitude = self.written(number.unsigned_abs(), 3, 6);
            format!("{}{magnitude}", if minus { "-" } else { "" })
        });
        numbers.join(" ")
    }

    pub fn text_of(&mut self, draft: &Draft) -> Vec<u8> {
        let mut lines = vec![
            format!("formula={}", FORMULAS[draft.formula].1),
            format!("white={}", WHITES[draft.white].1),
        ];
        if let Some([l, c]) = draft.factors {
            lines.push(format!("l={}", self.thousandths(l)));
            lines.push(format!("c={}", self.thousandths(c)));
        }
        lines.push(format!("tol={}", self.thousandths(draft.tolerance)));
        lines.push(format!("space={}", SPACES[draft.space].1));
        lines.push(format!("ref={}", self.reading(draft.reference)));
        lines.push(format!("test={}", self.reading(draft.test)));
        lines
            .iter()
            .flat_map(|line| [line, "\n"])
            .collect::<String>()
            .into_bytes()
    }
}
