//! What has been tried of deliveries that are accepted.

use crate::paper::cmc::second_form;
use crate::paper::conversion::{above_cut, grid_colour, Colour, WHITES};
use crate::paper::delivery::{Figures, Sort};
use crate::paper::numbers::nearest;
use crate::paper::readings::{reading_units, Quantity, INFINITY, SIGN};
use crate::paper::readings::{GRID_ONE as ONE, LIGHTEST, SIDE};
use crate::paper::ticket::Space;
use crate::seen::Seen;

impl Seen {
    pub fn accepted(&mut self, sort: &Sort, figures: &Figures) {
        self.cones += figures.colours.len();
        self.results(sort, figures);
        for place in 0..3 {
            self.sum(place, figures);
        }
        self.mean(figures);
        self.farthest(figures);
        self.colours(sort, &figures.colours);
        if sort.space == Space::Xyz {
            self.converted(sort, figures);
        }
    }

    fn results(&mut self, sort: &Sort, figures: &Figures) {
        let (written, kept) = sort.results.split_at(figures.colours.len());
        let nan = |entry: &u64| entry & !SIGN > INFINITY;
        let kinds = [
            ("results just enough", kept.is_empty()),
            ("one entry stays", kept.len() == 1),
            ("entries stay", kept.len() > 1),
            ("not-a-number written over", written.iter().all(nan)),
            ("not-a-number stays", kept.iter().any(nan)),
        ];
        self.notes(0, kinds);
    }

    /// How the sum of a coordinate is divided by the count.
    fn sum(&mut self, place: usize, figures: &Figures) {
        let count = figures.colours.len() as i64;
        let sum: i64 = figures.colours.iter().map(|colour| colour[place]).sum();
        // twice what it goes past a multiple of the count
        let past = 2 * (sum.abs() % count);
        let beside = count > 3 && (past - count).abs() <= 2;
        let kinds = [
            ("tie above zero", past == count && sum > 0),
            ("half a unit", 2 * sum == count),
            ("just short of a tie", beside && past < count),
            ("just past a tie", beside && past > count),
            ("nearest above", past > count),
            ("nearest below", 0 < past && past < count),
            ("sum past 2^32", sum > 1 << 32),
        ];
        self.notes(place, kinds);
        // no L* is below zero
        if place > 0 {
            let kinds = [
                ("tie below zero", past == count && sum < 0),
                ("half a unit below zero", 2 * sum == -count),
                ("sum past -2^32", sum < -1 << 32),
            ];
            self.notes(place, kinds);
        }
    }

    fn mean(&mut self, figures: &Figures) {
        let [l, a, b] = figures.mean;
        let neutral = |&[_, a, b]: &Colour| a == 0 && b == 0;
        let all_neutral = figures.colours.iter().all(neutral);
        let kinds = [
            ("neutral mean", neutral(&figures.mean) && !all_neutral),
            ("mean a unit from neutral", a.abs().max(b.abs()) == 1),
            ("mean below 16", l < 16 * ONE),
            ("mean of the first form", !second_form(figures.mean)),
            ("mean of the second form", second_form(figures.mean)),
        ];
        self.notes(0, kinds);
    }

    fn farthest(&mut self, figures: &Figures) {
        let (colours, differences) = (&figures.colours, &figures.differences);
        let farthest = figures.farthest;
        let greatest = differences[farthest];
        let both = || colours.iter().zip(differences);
        let as_far = both().filter(|(_, &de)| de == greatest && greatest > 0);
        let several = as_far.clone().count() > 1;
        let alike = as_far.clone().all(|(cone, _)| *cone == colours[farthest]);
        let rounded = both().any(|(cone, &de)| de == 0 && *cone != figures.mean);
        let alone = greatest > 0 && !several;
        let kinds = [
            ("several are farthest, of one colour", several && alike),
            ("several are farthest, not of one", several && !alike),
            ("several are farthest, not cone 0", several && farthest > 0),
            ("cone 0 alone is farthest", alone && farthest == 0),
            ("the last is farthest", farthest + 1 == colours.len()),
            (
                "another is a unit nearer",
                differences.contains(&(greatest - 1)),
            ),
            ("DE of 0, and not the mean", rounded),
            ("all below 2", 0 < greatest && greatest < 2 * ONE),
            ("from 2 to 10", (2 * ONE..10 * ONE).contains(&greatest)),
            ("beyond 100", greatest > 100 * ONE),
        ];
        self.notes(0, kinds);
    }

    fn colours(&mut self, sort: &Sort, colours: &[Colour]) {
        let readings = || (0..colours.len()).map(|cone| sort.cone(cone).bits);
        let one_reading = readings().all(|bits| bits == sort.cone(0).bits);
        let one = colours.iter().all(|colour| *colour == colours[0]);
        let minus_zero = readings().flatten().any(|bits| bits == SIGN);
        let at = |place: usize, end: i64| colours.iter().any(|colour| colour[place] == end);
        let kinds = [
            ("one colour", one),
            ("one colour, several readings", one && !one_reading),
            ("100 cones or more", colours.len() >= 100),
            ("a reading of -0.0", minus_zero),
            ("L* of 0", at(0, 0)),
        ];
        self.notes(sort.space as usize, kinds);
        let kinds = [
            ("L* of 120", at(0, LIGHTEST)),
            ("a* of 256", at(1, SIDE)),
            ("a* of -256", at(1, -SIDE)),
            ("b* of 256", at(2, SIDE)),
            ("b* of -256", at(2, -SIDE)),
        ];
        self.notes(0, kinds);
    }

    /// X, Y and Z: on both sides of the cut, and of which the mean would be another colour.
    fn converted(&mut self, sort: &Sort, figures: &Figures) {
        let units = |place: usize| -> Vec<u128> {
            let read = |&bits: &u64| reading_units(Quantity::Tristimulus, bits);
            let units = sort.readings[place].iter().map(read);
            units
                .map(|units| units.expect("in range") as u128)
                .collect()
        };
        let white = WHITES[sort.white as usize - 1];
        let count = figures.colours.len() as u128;
        let means = [0, 1, 2].map(|place| nearest(units(place).iter().sum(), count));
        let other = grid_colour(means, white) != Ok(figures.mean);
        let above: Vec<bool> = units(1).iter().map(|&y| above_cut(y, white[1])).collect();
        let kinds = [
            ("not the colour of the mean X, Y, Z", other),
            (
                "across the cut",
                above.contains(&true) && above.contains(&false),
            ),
            ("all below the cut", !above.contains(&true)),
        ];
        self.notes(0, kinds);
    }
}
