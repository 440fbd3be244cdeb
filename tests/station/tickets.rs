//! Tickets to hand over.

use crate::paper::report;
use crate::paper::station::Reading;
use crate::paper::ticket::{self, Space};
use crate::random::Random;

impl Random {
    /// A ticket's text: right, with numbers out of range, or damaged.
    pub fn ticket(&mut self) -> Vec<u8> {
        let (load, planned) = self.right_load();
        let (space, any) = (load.reference.space, self.reading(load.reference.space));
        let test = planned.filter(|_| !self.one_in(8)).unwrap_or(any);
        let [reference, test] = [load.reference, test].map(|reading| self.written(reading));
        let [l, c, tolerance] =
            [load.l, load.c, load.tolerance].map(|value| self.written_factor(value));
        let (_, formula) = ticket::FORMULAS[load.formula as usize - 1];
        let (_, white) = ticket::WHITES[load.white as usize - 1];
        let (_, space) = ticket::SPACES[space as usize];
        let factors = if self.one_in(6) {
            String::new()
        } else {
            format!("l={l}\nc={c}\n")
        };
        let mut words = format!(
            "formula={formula}\nwhite={white}\n{factors}tol={tolerance}\n\
             space={space}\nref={reference}\ntest={test}\n"
        )
        .into_bytes();
        if self.one_in(5) {
            self.damage(&mut words);
        }
        words
    }

    /// Three numbers, every so often out of range.
    fn written(&mut self, reading: Reading) -> String {
        let out = match reading.space {
            Space::Xyz => ["94.811 0 0", "150 0.5 0", "0 0 150.000001", "-0.000001 1 1"],
            Space::Lab => [
                "120.000001 0 0",
                "50 -256.000001 0",
                "50 0 999",
                "-0 256 -256",
            ],
        };
        if self.one_in(6) {
            return self.pick(&out).to_string();
        }
        let numbers = reading.bits.map(|bits| text_number(f64::from_bits(bits)));
        numbers.join(" ")
    }

    /// l, c or the tolerance, every so often out of range or in another form.
    fn written_factor(&mut self, thousandths: u32) -> String {
        let odd = ["0.499", "10.001", "0.099", "99.999", "0", "00.5", "1", "10"];
        if self.one_in(12) {
            return self.pick(&odd).to_string();
        }
        report::factor(thousandths.into())
    }

    /// Another byte, one more, one less, an early end, or a long tail.
    fn damage(&mut self, words: &mut Vec<u8>) {
        let at = self.below(words.len() as u64) as usize;
        let byte = self.pick(b"\n =.-019\r\tA\0\xff");
        match self.below(6) {
            0 => words[at] = byte,
            1 => words.insert(at, byte),
            2 => drop(words.remove(at)),
            3 => words.truncate(at),
            4 => words.push(byte),
            _ => words.resize(self.pick(&[4_096, 4_097, 5_000]), byte),
        }
    }
}

/// With up to six decimals, as a ticket has it.
fn text_number(value: f64) -> String {
    let text = format!("{value:.6}");
    text.trim_end_matches('0').trim_end_matches('.').to_string()
}
