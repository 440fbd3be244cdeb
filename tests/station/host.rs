//! A host with two stations, and the records of the calls that it makes.

use crate::list::List;
use crate::paper::handed::Handed;
use crate::paper::program::judge_ticket;
use crate::paper::refusals::{Answer, WRONG_LENGTH};
use crate::paper::report;
use crate::paper::station::{decode, encode, judge_faults, judged, ticket_faults};
use crate::paper::station::{Judged, Load, Reading, Slice, STATION};
use crate::random::Random;
use crate::seen::{Seen, TICKET};

/// What the calls of a run tell of a station's standard. The host may have begun with bytes of its
/// own; then the bytes alone tell until a load is accepted.
#[derive(Clone, Copy)]
enum LastLoad {
    Unknown,
    None,
    Accepted(Load),
}

pub struct Station {
    pub slice: Slice,
    last: LastLoad,
    /// a test specimen whose DE is about the tolerance
    pub planned: Option<Reading>,
}

impl Station {
    fn holding(slice: Slice) -> Station {
        Station {
            slice,
            last: if slice == [0; STATION] {
                LastLoad::None
            } else {
                LastLoad::Unknown
            },
            planned: None,
        }
    }
}

/// A lent room, and the column from which the report is to stand.
#[derive(Clone, Copy)]
pub struct Room {
    pub length: usize,
    pub column: usize,
}

impl Room {
    fn left(self) -> usize {
        report::room(self.length as u64, self.column as u64) as usize
    }
}

pub struct Host {
    pub random: Random,
    list: List,
    pub stations: [Station; 2],
    pub calls: u64,
    runs: u64,
    seen: Seen,
}

/// A record but for what the host knows by itself. What a call does not take stays 0.
#[derive(Default)]
struct Record<'a> {
    kind: usize,
    refusal: u64,
    station: usize,
    station_length: usize,
    room: [usize; 2],
    words: &'a [u8],
    report: &'a [u8],
    terms: [u32; 5],
    bits: [u64; 3],
    handed: Handed,
}

impl Host {
    pub fn open() -> Host {
        Host {
            random: Random(6923),
            list: List::open(),
            stations: [[0; STATION]; 2].map(Station::holding),
            calls: 0,
            runs: 0,
            seen: Seen::default(),
        }
    }

    fn write(&mut self, record: Record) {
        let numbers = [
            record.kind as u64,
            record.refusal,
            record.station as u64,
            record.station_length as u64,
            record.room[0] as u64,
            record.room[1] as u64,
            record.words.len() as u64,
            record.report.len() as u64,
        ];
        let mut bytes = Vec::with_capacity(512);
        bytes.extend(numbers.into_iter().flat_map(u64::to_le_bytes));
        bytes.extend(record.terms.into_iter().flat_map(u32::to_le_bytes));
        bytes.extend([0; 4]);
        bytes.extend(record.bits.into_iter().flat_map(u64::to_le_bytes));
        for station in &self.stations {
            bytes.extend(station.slice);
        }
        bytes.extend(record.handed.bytes());
        bytes.extend(record.words);
        bytes.extend(record.report);
        self.list.write(&bytes);
    }

    /// A run starts: the host puts these bytes into the two stations.
    pub fn start(&mut self, slices: [Slice; 2]) {
        self.stations = slices.map(Station::holding);
        self.runs += 1;
        self.write(Record::default());
    }

    pub fn load(&mut self, at: usize, load: Load, length: usize) {
        let faults = load.faults(length);
        if faults.is_empty() {
            self.stations[at].slice = encode(&load.standard());
            self.stations[at].last = LastLoad::Accepted(load);
        }
        // the length of a slice does not matter to what is handed back
        let handed = match load.faults(STATION).first() {
            Some(&number) => Handed::refused(number),
            None => Handed::of_load(&load.standard()),
        };
        let kind = load.reference.space as usize;
        self.seen.call(kind, &faults, b"");
        self.calls += 1;
        self.write(Record {
            kind: 1 + kind,
            refusal: faults.first().copied().unwrap_or(0).into(),
            station: at,
            station_length: length,
            terms: [load.formula, load.white, load.l, load.c, load.tolerance],
            bits: load.reference.bits,
            handed,
            ..Record::default()
        });
    }

    /// Judges, with this room or with any.
    pub fn judge(&mut self, at: usize, reading: Reading, length: usize, room: Option<Room>) {
        let station = &self.stations[at];
        let standard = decode(&station.slice).filter(|_| length == STATION);
        let answer = judged(standard, &reading);
        // SCOPE 1.4: the slice is as the calls left it, so the answer is that of a fresh station that
        // was given the last accepted load
        let fresh = match station.last {
            LastLoad::Unknown => answer.clone(),
            LastLoad::None => judged(None, &reading),
            LastLoad::Accepted(_) if length != STATION => judged(None, &reading),
            LastLoad::Accepted(load) => judged(Some(load.standard()), &reading),
        };
        assert_eq!(answer, fresh, "the bytes tell another standard");
        if let Some(standard) = standard {
            if let Ok(test) = reading.place(standard.white) {
                self.seen
                    .greys
                    .report(standard.formula, standard.colour, test);
            }
        }
        let faults = judge_faults(standard, &reading);
        let kind = 2 + reading.space as usize;
        let record = Record {
            station: at,
            station_length: length,
            bits: reading.bits,
            ..Record::default()
        };
        self.report(kind, record, answer, faults, room);
    }

    pub fn ticket(&mut self, words: &[u8]) {
        let report = judge_ticket(words).map_err(|(number, _)| number);
        let answer = report.and_then(|report| Ok((report, Handed::of_ticket(words)?)));
        let record = Record {
            station_length: STATION,
            words,
            ..Record::default()
        };
        self.report(TICKET, record, answer, ticket_faults(words), None);
    }

    /// The record of a judgement or a ticket, with 10 as the last refusal.
    fn report(
        &mut self,
        kind: usize,
        record: Record,
        answer: Answer<Judged>,
        mut faults: Vec<u32>,
        room: Option<Room>,
    ) {
        let first = faults.first().copied();
        assert_eq!(answer.as_ref().err().copied(), first, "{faults:?}");
        let (report, handed) =
            answer.unwrap_or_else(|number| (Vec::new(), Handed::refused(number)));
        let needed = report.len();
        let room = room.unwrap_or_else(|| self.random.room(needed));
        // a call that has no report to write has no room for one if it has none at all
        if room.left() < needed.max(1) {
            faults.push(WRONG_LENGTH);
        }
        let report = if faults.is_empty() {
            report
        } else {
            Vec::new()
        };
        self.seen.call(kind, &faults, &report);
        self.calls += 1;
        self.write(Record {
            kind: 1 + kind,
            refusal: faults.first().copied().unwrap_or(0).into(),
            room: [room.length, room.column],
            report: &report,
            handed,
            ..record
        });
    }

    pub fn end(mut self) {
        self.seen.check();
        let (calls, runs) = (self.calls, self.runs as usize);
        self.write(Record {
            kind: 6,
            refusal: calls,
            station: runs,
            ..Record::default()
        });
        self.list.close();
    }
}
