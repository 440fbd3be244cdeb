//! The records: a text with its answer and some calls.

use crate::damage::DAMAGES;
use crate::drafts::Draft;
use crate::list::List;
use crate::paper::handed::Handed;
use crate::paper::refusals::Answer;
use crate::paper::{program, report};
use crate::random::Random;
use crate::seen::Seen;

pub struct Tickets {
    pub random: Random,
    list: List,
    records: u32,
    pub seen: Seen,
}

impl Tickets {
    pub fn open() -> Tickets {
        let mut seen = Seen::default();
        seen.notes(DAMAGES.map(|(kind, _)| (kind, false)));
        Tickets {
            random: Random(6_923),
            list: List::open(),
            records: 0,
            seen,
        }
    }

    fn header(&mut self, numbers: [u32; 4], handed: Handed) {
        for number in numbers {
            self.list.write(&number.to_le_bytes());
        }
        self.list.write(&handed.bytes());
    }

    /// A text with its answer and some calls.
    pub fn put(&mut self, text: &[u8]) {
        let judged = program::judge_ticket(text);
        let printed = program::shown(&judged);
        let line = judged.as_ref().map_or_else(|(_, line)| *line, |_| 0);
        let judged = judged.map_err(|(number, _)| number);
        let calls = self.random.calls(&judged);
        let handed = Handed::of_ticket(text).unwrap_or_else(Handed::refused);
        let numbers = [text.len(), printed.len(), calls.len(), line];
        self.header(numbers.map(|number| number as u32), handed);
        self.list.write(text);
        self.list.write(&printed);
        for [length, column] in calls {
            let answered = report::answer(&judged, length, column);
            for number in [length, column, answered.into()] {
                self.list.write(&number.to_le_bytes());
            }
            self.seen.call(&judged, [length, column]);
        }
        self.records += 1;
        self.seen.record(text, &printed);
    }

    pub fn draft(&mut self, draft: &Draft) {
        let text = self.random.text_of(draft);
        self.put(&text);
    }

    pub fn end(mut self) {
        self.seen.check();
        self.header([u32::MAX, self.records, 0, 0], Handed::default());
        self.list.close();
        self.seen.tell();
    }
}

impl Random {
    /// Lengths of the lent room with columns: one in which a report has room, then often one in which
    /// it has not. A refused ticket gets the same.
    fn calls(&mut self, judged: &Answer<Vec<u8>>) -> Vec<[u64; 2]> {
        let needed = match judged {
            Ok(report) => report.len() as u64,
            Err(_) => 1 + self.below(161),
        };
        let any = self.below(400);
        let column = self.pick(&[0, 1, any % 8, any, any]);
        let more = self.pick(&[0, 0, 1, any % 100]);
        let ample = [column + needed + more, column];
        let any = self.below(400);
        let short = match self.below(12) {
            0..=2 => [column + needed - 1, column],
            3 => [column + self.below(needed), column],
            // the column at the end, or past it
            4 => [any, any + self.pick(&[0, 0, 1, needed])],
            // columns that come into the room when their upper bits are lost, or when something is
            // added to them
            5 => [any + needed, self.pick(&[1 << 32, 1 << 63, 1 << 16])],
            6 => [any + needed, u64::MAX - self.below(needed + any + 1)],
            _ => return vec![ample],
        };
        vec![ample, short]
    }
}
