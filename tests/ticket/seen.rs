//! What has been tried.

use std::collections::BTreeMap;

use crate::aimed::beyond_near;
use crate::grey::Greys;
use crate::paper::conversion::Colour;
use crate::paper::refusals::Answer;
use crate::paper::report;
use crate::paper::settings;
use crate::paper::sheet::{verdict, Sheet, PLACES};
use crate::paper::standard::{accepted, place, Standard};
use crate::paper::ticket::{self, Ticket};

/// How many have been of each kind.
#[derive(Default)]
pub struct Seen {
    /// Lines of what is printed, all figures of one sign alike.
    lines: BTreeMap<String, u64>,
    kinds: BTreeMap<&'static str, u64>,
    greys: Greys,
}

/// Every line that can be printed, but for l and c.
const LINES: &str =
    "formula=CIELAB|formula=CIE94|formula=CMC|white=D65/10|white=D65/2|white=C/10|white=C/2\
    |DE=|DL=|DL=-|DC=|DC=-|DC=withheld|DH=|DH=-|DH=withheld|lightness=lighter|lightness=darker\
    |lightness=equal|chroma=more|chroma=less|chroma=equal|chroma=withheld|hue=redder(yellower)\
    |hue=redder(bluer)|hue=yellower(redder)|hue=yellower(greener)|hue=greener(yellower)\
    |hue=greener(bluer)|hue=bluer(greener)|hue=bluer(redder)|hue=equal|hue=withheld|verdict=near\
    |verdict=pass|verdict=fail|refused=3 line=0|refused=4 line=0|refused=6 line=0|refused=8 line=0\
    |refused=7 line=0|refused=7 line=1|refused=7 line=2|refused=7 line=3|refused=7 line=4\
    |refused=7 line=5|refused=7 line=6|refused=7 line=7|refused=7 line=8|refused=7 line=9";

impl Seen {
    pub fn note(&mut self, kind: &'static str, is_one: bool) {
        *self.kinds.entry(kind).or_default() += u64::from(is_one);
    }

    pub fn notes<const N: usize>(&mut self, kinds: [(&'static str, bool); N]) {
        for (kind, is_one) in kinds {
            self.note(kind, is_one);
        }
    }

    pub fn record(&mut self, text: &[u8], printed: &[u8]) {
        for line in String::from_utf8_lossy(printed).lines() {
            let kind = match line.as_bytes() {
                [b'l' | b'c', b'=', ..] => continue,
                [b'D', _, b'=', b'0'..=b'9', ..] => &line[..3],
                [b'D', _, b'=', b'-', ..] => &line[..4],
                _ => line,
            };
            *self.lines.entry(kind.to_string()).or_default() += 1;
        }
        self.notes([
            ("empty text", text.is_empty()),
            ("4096 bytes", text.len() == 4_096),
            ("4097 bytes", text.len() == 4_097),
            ("over 65536 bytes", text.len() > 65_536),
        ]);
        if let Ok(ticket) = ticket::parse(text) {
            let text = String::from_utf8_lossy(text);
            self.forms(&text);
            self.ticket(&ticket);
            let is_without = !text.contains("\nl=");
            self.note("without l and c", is_without);
            if is_without {
                self.without_l_and_c(&ticket);
            }
        }
    }

    /// A text without l and c, in which the verdict can hang on what they are.
    fn without_l_and_c(&mut self, ticket: &Ticket) {
        let verdict_by = |[l, c]: [u64; 2]| {
            let (standard, test) = accepted(&Ticket { l, c, ..*ticket }).ok()?;
            let tolerance = standard.tolerance.into();
            Some(verdict(PLACES, standard.sheet(test).de, tolerance))
        };
        let own = verdict_by([ticket.l, ticket.c]);
        self.notes([
            ("another verdict by 1:1", verdict_by([1_000; 2]) != own),
            ("another verdict by 1:2", verdict_by([1_000, 2_000]) != own),
            ("another verdict by 2:2", verdict_by([2_000; 2]) != own),
        ]);
    }

    /// How the numbers of a right text are written.
    fn forms(&mut self, text: &str) {
        for line in text.lines() {
            let (key, value) = line.split_once('=').expect("each line has a key");
            let numbers = match key {
                "l" | "c" | "tol" | "ref" | "test" => value.split(' '),
                _ => continue,
            };
            for number in numbers {
                let magnitude = number.trim_start_matches('-');
                let (whole, decimals) = magnitude.split_once('.').unwrap_or((magnitude, ""));
                let is_zero = (whole.bytes().chain(decimals.bytes())).all(|digit| digit == b'0');
                self.note("minus zero", is_zero && magnitude != number);
                self.note("zero first", whole.len() > 1 && whole.starts_with('0'));
                let short = ["l", "c", "tol"].contains(&key);
                for (kind, places) in [("no decimals", 0), ("1 decimal", 1), ("3 decimals", 3)] {
                    self.note(kind, short && decimals.len() == places);
                }
                for (kind, places) in [("4 of a reading", 4), ("6 of a reading", 6)] {
                    self.note(kind, decimals.len() == places);
                }
                self.note("3 digits and 6", whole.len() == 3 && decimals.len() == 6);
            }
        }
    }

    /// What a right text says.
    pub fn ticket(&mut self, ticket: &Ticket) {
        let [l, c] = [ticket.l, ticket.c].map(|factor| settings::factor(factor).is_err());
        let tolerance = settings::tolerance(ticket.tolerance).is_err();
        let place = |reading| place(ticket.space, ticket.white, reading).err();
        let readings = [ticket.reference, ticket.test].map(place);
        let read = !l && !c && !tolerance;
        // out of range in Z, beyond 256 whatever Z is
        let mut without_z = ticket.reference;
        without_z[2].millionths = 0;
        let both = readings[0] == Some(6) && place(without_z) == Some(8);
        self.notes([
            ("l alone out of range", l && !c),
            ("c alone out of range", c && !l),
            ("3 before 4", (l || c) && tolerance),
            ("3 before a reading", (l || c) && readings != [None; 2]),
            (
                "4 before a reading",
                !l && !c && tolerance && readings != [None; 2],
            ),
            ("6 for ref", read && readings == [Some(6), None]),
            ("6 for test", read && readings == [None, Some(6)]),
            ("8 for ref", read && readings == [Some(8), None]),
            ("8 for test", read && readings == [None, Some(8)]),
            ("6 for ref before 8", read && readings == [Some(6), Some(8)]),
            ("8 for ref before 6", read && readings == [Some(8), Some(6)]),
            ("6 before 8 in one", read && both),
        ]);
        if let Ok((standard, test)) = accepted(ticket) {
            self.judgement(&standard, test);
        }
    }

    fn judgement(&mut self, standard: &Standard, test: Colour) {
        let sheet = standard.sheet(test);
        let withheld = standard.withholds(test);
        let vanishes = |figure| (-52..0).contains(&figure) && !withheld;
        let beyond = beyond_near(sheet.de, standard.tolerance.into());
        self.notes([
            ("minus of DL not shown", vanishes(sheet.dl)),
            ("minus of DC not shown", vanishes(sheet.dc)),
            ("minus of DH not shown", vanishes(sheet.dh)),
            ("DE on an end of near", beyond == 0),
            ("DE from 100 on", sheet.de >= 100 << 20),
        ]);
        if !withheld {
            self.printing(&sheet);
        }
        self.greys.report(standard.formula, standard.colour, test);
    }

    /// Figures that are printed, and at which the printing could go wrong.
    fn printing(&mut self, sheet: &Sheet) {
        let up = |figure: i128| figure > 0 && figure % (1 << 16) == 1 << 15;
        let longer = |figure: i128| {
            report::figure(figure).len() > (figure >> 20).to_string().len() + ".0000".len()
        };
        // a minus is shown that cut figures would not show
        let first = |figure| (-104..=-53).contains(&figure);
        self.notes([
            ("DE is a tie", up(sheet.de)),
            ("DL is a tie", up(sheet.dl)),
            ("DL is a tie below zero", up(-sheet.dl)),
            ("DC is a tie", up(sheet.dc)),
            ("DC is a tie below zero", up(-sheet.dc)),
            ("DH is a tie", up(sheet.dh)),
            ("DH is a tie below zero", up(-sheet.dh)),
            ("a carry adds a digit to DE", longer(sheet.de)),
            (
                "a carry adds a digit to DH",
                sheet.dh > 0 && longer(sheet.dh),
            ),
            ("-0.0001 of DL", first(sheet.dl)),
            ("-0.0001 of DC", first(sheet.dc)),
            ("-0.0001 of DH", first(sheet.dh)),
        ]);
    }

    pub fn call(&mut self, judged: &Answer<Vec<u8>>, [length, column]: [u64; 2]) {
        let room = report::room(length, column);
        let over = |more: u64| match judged {
            Ok(report) => room + 1 == report.len() as u64 + more,
            Err(_) => false,
        };
        self.notes([
            ("room short by a byte", over(0)),
            ("room just enough", over(1)),
            ("room with a byte more", over(2)),
            ("no room", judged.is_ok() && room == 0),
            ("no room, but another refusal", judged.is_err() && room == 0),
            ("column past 2^63", column > 1 << 63),
        ]);
    }

    /// Nothing that can be printed and no kind may be missing.
    pub fn check(&self) {
        let lines = || {
            self.lines
                .iter()
                .map(|(line, count)| (line.as_str(), count))
        };
        let mut wanted: Vec<&str> = LINES.split('|').collect();
        wanted.sort_unstable();
        assert_eq!(lines().map(|(line, _)| line).collect::<Vec<_>>(), wanted);
        for (kind, count) in lines().chain(self.kinds.iter().map(|(kind, count)| (*kind, count))) {
            assert!(*count >= 100, "only {count}: {kind}");
        }
        self.greys.check();
    }

    /// Verdicts and refusals, for who reads the run.
    pub fn tell(&self) {
        let told = |line: &str| line.starts_with("verdict") || line.starts_with("refused");
        let lines = self.lines.iter().filter(|(line, _)| told(line));
        let counts: Vec<String> = lines
            .map(|(line, count)| format!("{line}: {count}"))
            .collect();
        eprintln!("ticket-answers: {}", counts.join(", "));
    }
}
