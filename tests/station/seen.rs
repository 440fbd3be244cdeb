//! What has been tried.

use std::collections::BTreeMap;

use crate::grey::Greys;
use crate::paper::{report, ticket};

/// Names of the kinds of call, with the refusals that each can give (SCOPE 8.3). The second and the
/// fourth never give 8: L*, a*, b* are not converted.
const KINDS: [(&str, &[u32]); 5] = [
    ("load X Y Z", &[0, 1, 2, 3, 4, 5, 6, 8, 10]),
    ("load L a b", &[0, 1, 2, 3, 4, 5, 6, 10]),
    ("judge X Y Z", &[0, 5, 6, 8, 9, 10]),
    ("judge L a b", &[0, 5, 6, 9, 10]),
    ("ticket", &[0, 3, 4, 6, 7, 8, 10]),
];
pub const TICKET: usize = 4;

/// How often each answer has come: the refusals of each kind of call, each pair of refusals of which
/// the first was given and the second would have been next, each word of the reports.
#[derive(Default)]
pub struct Seen {
    numbers: BTreeMap<(usize, u32), u64>,
    pairs: BTreeMap<(usize, u32, u32), u64>,
    words: BTreeMap<(usize, Vec<u8>), u64>,
    longest: usize,
    /// of the judgements that come to a report, whether there is room for it or not
    pub greys: Greys,
}

impl Seen {
    pub fn call(&mut self, kind: usize, faults: &[u32], report: &[u8]) {
        let first = faults.first().copied().unwrap_or(0);
        *self.numbers.entry((kind, first)).or_default() += 1;
        if let [first, second, ..] = *faults {
            *self.pairs.entry((kind, first, second)).or_default() += 1;
        }
        self.longest = self.longest.max(report.len());
        for line in report.split(|&byte| byte == b'\n') {
            // a line with a figure or a factor has a short key
            let is_number = matches!(
                line,
                [b'l' | b'c', b'=', ..] | [b'D', _, b'=', .., b'0'..=b'9']
            );
            if !is_number {
                *self.words.entry((kind, line.to_vec())).or_default() += 1;
            }
        }
    }

    pub fn check(&self) {
        self.check_numbers();
        self.check_pairs();
        self.check_words();
        self.greys.check();
        // SHADE_REPORT_BYTES
        assert_eq!(self.longest, 161);
    }

    fn check_numbers(&self) {
        for (kind, (name, numbers)) in KINDS.iter().enumerate() {
            for number in 0..=10 {
                let count = self.numbers.get(&(kind, number)).copied().unwrap_or(0);
                if numbers.contains(&number) {
                    assert!(count >= 1_000, "{name}: only {count} answers {number}");
                } else {
                    assert_eq!(count, 0, "{name} cannot answer {number}");
                }
            }
        }
    }

    /// SCOPE 8.2: each two neighbours in the order that a call of this kind can have at once.
    fn check_pairs(&self) {
        let chains: [&[&[u32]]; 5] = [
            &[&[1, 2, 3, 4, 5, 6, 10], &[4, 8, 10]],
            &[&[1, 2, 3, 4, 5, 6, 10]],
            &[&[9, 5, 6, 10], &[9, 8, 10]],
            &[&[9, 5, 6, 10]],
            // the reference's 6 and 8 come before the test specimen's
            &[&[3, 4, 6, 10], &[4, 8, 10], &[7, 10], &[6, 8], &[8, 6]],
        ];
        for (kind, chains) in chains.into_iter().enumerate() {
            for pair in chains.iter().flat_map(|chain| chain.windows(2)) {
                let key = (kind, pair[0], pair[1]);
                let count = self.pairs.get(&key).copied().unwrap_or(0);
                assert!(count >= 100, "only {count} calls have both of {key:?}");
            }
        }
    }

    fn check_words(&self) {
        let mut words: Vec<String> = ["DC", "DH", "chroma", "hue"]
            .map(|key| format!("{key}=withheld"))
            .to_vec();
        words.extend(ticket::FORMULAS.map(|(_, name)| format!("formula={name}")));
        words.extend(ticket::WHITES.map(|(_, name)| format!("white={name}")));
        words.extend(report::LIGHTNESS_NAMES.map(|(_, name)| format!("lightness={name}")));
        words.extend(report::CHROMA_NAMES.map(|(_, name)| format!("chroma={name}")));
        words.extend(report::VERDICTS.map(|(_, name)| format!("verdict={name}")));
        words.push("hue=equal".to_string());
        // SCOPE 7.2: the two axes of a name are neighbours
        let hues = report::HUE_NAMES.map(|(_, name)| name);
        for place in 0..4 {
            for next in [hues[(place + 1) % 4], hues[(place + 3) % 4]] {
                words.push(format!("hue={}({next})", hues[place]));
            }
        }
        for kind in 2..=TICKET {
            for word in &words {
                let key = (kind, word.clone().into_bytes());
                let count = self.words.get(&key).copied().unwrap_or(0);
                assert!(count >= 200, "{}: only {count} of {word}", KINDS[kind].0);
            }
        }
    }
}
