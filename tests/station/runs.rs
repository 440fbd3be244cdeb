//! Runs to make.

use crate::host::{Host, Room};
use crate::paper::readings::{handed_back, GRID_ONE as ONE, LIGHTEST, SIDE};
use crate::paper::report;
use crate::paper::station::{encode, Load, Reading, Slice, STATION};
use crate::paper::ticket::Space;

impl Host {
    /// Bytes to start with: zeros, a standard of an earlier run, such a one with something changed,
    /// or anything.
    fn first_bytes(&mut self) -> Slice {
        let mut slice = self.stations[self.random.below(2) as usize].slice;
        match self.random.below(10) {
            0..=5 => slice = [0; STATION],
            6 => {}
            7 | 8 => slice[self.random.below(20) as usize] = self.random.next() as u8,
            _ => slice = [0; STATION].map(|_: u8| self.random.next() as u8),
        }
        slice
    }

    pub fn any_run(&mut self) {
        let slices = [self.first_bytes(), self.first_bytes()];
        self.start(slices);
        let calls = 1 + self.random.below(200);
        // most runs are of one station; in some the two take turns
        let second_in = self.random.pick(&[0, 0, 2, 8]);
        for _ in 0..calls {
            let at = usize::from(second_in > 0 && self.random.one_in(second_in));
            match self.random.below(16) {
                0..=4 => self.any_load(at),
                5 => {
                    let words = self.random.ticket();
                    self.ticket(&words);
                }
                _ => self.any_judgement(at),
            }
        }
    }

    /// A slice with one number at or past an end of its range, first judged, then loaded over.
    pub fn each_field(&mut self) {
        let [lowest, highest] = [-SIDE, SIDE];
        // place, bytes, least and greatest
        let fields = [
            (0, 1, 1, 3),
            (1, 1, 1, 4),
            (2, 2, 500, 10_000),
            (4, 2, 500, 10_000),
            (6, 2, 100, 10_000),
            (8, 4, 0, LIGHTEST),
            (12, 4, lowest, highest),
            (16, 4, lowest, highest),
        ];
        for _ in 0..100 {
            for (place, bytes, least, greatest) in fields {
                let ends = [least, greatest].map(|end: i64| [end - 1, end, end + 1]);
                let extremes = [0, -1, 1 << 31, (1 << 31) - 1];
                for number in [&ends.concat()[..], &extremes].concat() {
                    let mut slice = encode(&self.random.right_load().0.standard());
                    let number = number.to_le_bytes();
                    slice[place..place + bytes].copy_from_slice(&number[..bytes]);
                    self.start([slice, [0; STATION]]);
                    for at in [0, 0, 1] {
                        let space = self.random.space();
                        let reading = self.random.reading(space);
                        self.judge(at, reading, STATION, None);
                    }
                    let (load, planned) = self.random.right_load();
                    let (wrong, length) = self.random.wrong_load(load);
                    self.stations[0].planned = planned;
                    self.load(0, wrong, length);
                    self.any_judgement(0);
                    self.load(0, load, STATION);
                    self.any_judgement(0);
                }
            }
        }
    }

    /// Each length of a station's slice but the right one, for loads and judgements; and a ticket
    /// of no length.
    pub fn each_length(&mut self) {
        for _ in 0..50 {
            self.start([[0; STATION]; 2]);
            let (load, _) = self.random.right_load();
            self.load(0, load, STATION);
            for length in (0..=40).filter(|&length| length != STATION) {
                let (load, _) = self.random.right_load();
                self.load(0, load, length);
                self.judge(0, load.reference, length, None);
                self.judge(0, load.reference, STATION, None);
            }
            self.ticket(b"");
        }
    }

    /// Each room and column about the length of a short report, and of the longest.
    pub fn each_room(&mut self) {
        let whole = |values: [i64; 3]| Reading {
            space: Space::Lab,
            bits: values.map(|value| handed_back(value * ONE)),
        };
        let long = Load {
            formula: 1,
            white: 1,
            l: 10_000,
            c: 10_000,
            tolerance: 1_000,
            reference: whole([120, -256, -256]),
        };
        let short = Load {
            formula: 3,
            white: 4,
            l: 1_000,
            reference: whole([50, 0, 0]),
            ..long
        };
        let cases = [(long, whole([0, -100, 200])), (short, whole([50, 0, 0]))];
        for (load, test) in cases {
            self.start([[0; STATION]; 2]);
            self.load(0, load, STATION);
            let needed = report::report(&load.standard(), test.place(1).expect("in range")).len();
            for length in 0..=2 * needed {
                let last = length.saturating_sub(needed);
                let columns = [last.saturating_sub(1), last, last + 1, length, length + 1];
                for column in [&[0, 1, 2, 3, 20, needed], &columns[..]].concat() {
                    self.judge(0, test, STATION, Some(Room { length, column }));
                }
            }
            self.far_columns(test, needed);
        }
    }

    /// Columns so far that one and the report's length go past the greatest number.
    fn far_columns(&mut self, test: Reading, needed: usize) {
        for short in 0..=needed + 2 {
            for length in [0, needed, 2 * needed] {
                let column = usize::MAX - short;
                self.judge(0, test, STATION, Some(Room { length, column }));
            }
        }
    }
}
