//! What has been tried.

use std::collections::BTreeMap;

use crate::paper::conversion::place_xyz;
use crate::paper::delivery::{Refused, Sort, Sorted, FEWEST, MOST};
use crate::paper::readings::reading_units;
use crate::paper::refusals::{BEYOND_256, NOT_A_NUMBER, OUT_OF_RANGE};
use crate::paper::settings::factor;
use crate::paper::ticket::Space;

/// The refusals that each kind of reading can have (SCOPE 8.3): L*, a*, b* are not converted.
const NUMBERS: [&[u32]; 2] = [&[0, 2, 3, 5, 6, 8, 11], &[0, 2, 3, 5, 6, 11]];

/// Where a wrong reading stands, and how it is wrong.
const PLACES: [&str; 3] = ["first", "last", "between"];
const WRONGS: [&str; 4] = ["not a number", "infinite", "below", "above"];

/// How often each has come: the refusals of each kind of reading; each pair of refusals of which the
/// first was given and the second would have been next, and whether they are two cones'; a single
/// wrong reading, by how it is wrong, its slice and its place; and the other kinds, where the number
/// says of which slice, coordinate, kind of reading or setting, or is 0.
#[derive(Default)]
pub struct Seen {
    numbers: BTreeMap<(usize, u32), u64>,
    pairs: BTreeMap<(usize, u32, u32, bool), u64>,
    wrong: BTreeMap<(usize, &'static str, usize, &'static str), u64>,
    kinds: BTreeMap<(&'static str, usize), u64>,
    /// in deliveries that are accepted
    pub cones: usize,
}

impl Seen {
    pub fn note(&mut self, kind: &'static str, of: usize, is_one: bool) {
        *self.kinds.entry((kind, of)).or_default() += u64::from(is_one);
    }

    pub fn notes<const N: usize>(&mut self, of: usize, kinds: [(&'static str, bool); N]) {
        for (kind, is_one) in kinds {
            self.note(kind, of, is_one);
        }
    }

    pub fn sort(&mut self, sort: &Sort, faults: &[Refused], sorted: &Sorted) {
        let space = sort.space as usize;
        let number = faults.first().map_or(0, |refused| refused.number);
        *self.numbers.entry((space, number)).or_default() += 1;
        if let [first, second, ..] = *faults {
            let two_cones = second.cone != first.cone && ![2, 3, 11].contains(&first.number);
            let key = (space, first.number, second.number, two_cones);
            *self.pairs.entry(key).or_default() += 1;
        }
        // wrong in one way alone, or in none
        if faults.len() <= 1 {
            self.counts(sort);
            self.settings(sort);
        }
        if let [refused] = faults {
            self.wrong_reading(sort, refused);
        }
        let hides_8 = faults.first().is_some_and(|first| hides_8(sort, first));
        self.note("6 before 8 in one", 0, hides_8);
        let factors = [sort.l, sort.c].map(|value| factor(value.into()).is_err());
        self.note("3 for both", 0, factors == [true; 2]);
        if let Ok(figures) = sorted {
            self.accepted(sort, figures);
        }
    }

    fn counts(&mut self, sort: &Sort) {
        let lengths = sort.lengths();
        let [first, second, third] = lengths;
        let results = sort.results.len();
        let same = first == second && first == third;
        for count in [0, 1, 2, 255, 256, 257, 300] {
            self.note("so many cones", count, same && first == count);
        }
        self.note("no entry in any slice", 0, same && first + results == 0);
        for place in 0..3 {
            let (length, other) = (lengths[place], lengths[(place + 1) % 3]);
            let alone = other == lengths[(place + 2) % 3]
                && (FEWEST..=MOST).contains(&other)
                && results >= other.max(length);
            self.notes(
                place,
                [
                    ("slice empty", alone && length == 0),
                    ("slice shorter by one", alone && length + 1 == other),
                    ("slice shorter by more", alone && length + 1 < other),
                    ("slice longer by one", alone && length == other + 1),
                    ("slice longer by more", alone && length > other + 1),
                ],
            );
        }
        let counted = same && (FEWEST..=MOST).contains(&first);
        let all_differ = first != second && first != third && second != third;
        self.notes(
            0,
            [
                ("results one short", counted && results + 1 == first),
                ("results shorter", counted && results + 1 < first),
                ("no results", counted && results == 0),
                ("three lengths", all_differ),
            ],
        );
    }

    fn settings(&mut self, sort: &Sort) {
        for white in [0, 1, 2, 3, 4, 5, 1 << 31] {
            self.note("white", white as usize, sort.white == white);
        }
        for end in [0, 499, 500, 10_000, 10_001, u32::MAX] {
            self.note("l", end as usize, sort.l == end);
            self.note("c", end as usize, sort.c == end);
        }
    }

    /// A cone that is refused for one of its readings.
    fn wrong_reading(&mut self, sort: &Sort, refused: &Refused) {
        if ![NOT_A_NUMBER, OUT_OF_RANGE].contains(&refused.number) {
            return;
        }
        let bits = sort.cone(refused.cone).bits;
        let quantities = sort.space.quantities();
        let wrong = |&place: &usize| reading_units(quantities[place], bits[place]).is_err();
        let places: Vec<usize> = (0..3).filter(wrong).collect();
        if let [slice] = *places {
            let value = f64::from_bits(bits[slice]);
            let kind = match value {
                _ if value.is_nan() => WRONGS[0],
                _ if value.is_infinite() => WRONGS[1],
                _ if value < 0.0 => WRONGS[2],
                _ => WRONGS[3],
            };
            let place = match refused.cone {
                0 => PLACES[0],
                last if last + 1 == sort.readings[slice].len() => PLACES[1],
                _ => PLACES[2],
            };
            let key = (sort.space as usize, kind, slice, place);
            *self.wrong.entry(key).or_default() += 1;
        }
    }

    pub fn check(&self) {
        for (space, numbers) in NUMBERS.into_iter().enumerate() {
            for number in 0..=11 {
                let count = self.numbers.get(&(space, number)).copied().unwrap_or(0);
                if numbers.contains(&number) {
                    assert!(count >= 1_000, "{space}: only {count} answers {number}");
                } else {
                    assert_eq!(count, 0, "{space} cannot answer {number}");
                }
            }
            self.check_pairs(space, numbers);
            for kind in WRONGS {
                for (slice, place) in (0..9).map(|of| (of / 3, PLACES[of % 3])) {
                    let key = (space, kind, slice, place);
                    let count = self.wrong.get(&key).copied().unwrap_or(0);
                    assert!(count >= 50, "only {count} readings: {key:?}");
                }
            }
        }
        for (kind, count) in &self.kinds {
            assert!(*count >= 100, "only {count} deliveries: {kind:?}");
        }
    }

    /// SCOPE 13.5: each two neighbours in the order, and each two refusals of two cones.
    fn check_pairs(&self, space: usize, numbers: &[u32]) {
        let mut pairs = vec![(11, 2, false), (2, 3, false), (5, 6, false)];
        let of_cones = [5, 6, 8]
            .into_iter()
            .filter(|number| numbers.contains(number));
        for first in of_cones.clone() {
            pairs.push((3, first, false));
            pairs.extend(of_cones.clone().map(|second| (first, second, true)));
        }
        for (first, second, two_cones) in pairs {
            let key = (space, first, second, two_cones);
            let count = self.pairs.get(&key).copied().unwrap_or(0);
            assert!(count >= 100, "only {count} calls have both of {key:?}");
        }
    }
}

/// Whether a cone is refused with 6 that is beyond 256 whatever Z is.
fn hides_8(sort: &Sort, refused: &Refused) -> bool {
    let Refused { number, cone } = *refused;
    if number != OUT_OF_RANGE || sort.space == Space::Lab {
        return false;
    }
    let [x, y, _] = sort.cone(cone).bits;
    place_xyz(sort.white, [x, y, 0]) == Err(BEYOND_256)
}
