//! Settings and cones that are refused, and several at once.

use crate::numbers::{Cone, SPACES};
use crate::paper::delivery::Sort;
use crate::paper::readings::{Quantity, FRACTION, INFINITY, SIGN};
use crate::paper::refusals::{BEYOND_256, NOT_A_NUMBER, OUT_OF_RANGE};
use crate::paper::ticket::Space;
use crate::random::Random;
use crate::records::Deliveries;

/// Some come into their range if their upper bits are lost.
const WHITES: [u32; 7] = [0, 5, 6, 257, 65_540, 1 << 31, u32::MAX];
const FACTORS: [u32; 7] = [
    0,
    1,
    499,
    10_001,
    (1 << 16) + 1_000,
    (1 << 31) + 1_000,
    u32::MAX,
];

impl Random {
    /// Not-a-number, quiet or signalling, with any payload, or infinite.
    fn not_a_number(&mut self) -> u64 {
        let payload = 1 + self.below(FRACTION);
        let set = [0, 0, 1, 1 << 51, FRACTION, payload];
        self.pick(&[0, SIGN]) | INFINITY | self.pick(&set)
    }

    /// Just outside a reading's range, or far from it.
    fn out_of_range(&mut self, quantity: Quantity) -> u64 {
        let (least, highest) = match quantity {
            Quantity::Tristimulus => (0.0, 150.0_f64),
            Quantity::Lightness => (0.0, 120.0),
            Quantity::Opponent => (-256.0, 256.0),
        };
        let below = if least == 0.0 {
            [SIGN | 1, (-1.0_f64).to_bits()]
        } else {
            [256.0_f64, 300.0].map(|value| SIGN | (value.to_bits() + 1))
        };
        let above = [highest.to_bits() + 1, (highest + 0.5).to_bits()];
        let near = [below, above].concat();
        let far = [1e9, -1e9, 1e300, -1e300].map(f64::to_bits);
        self.pick(&[&near[..], &near, &far].concat())
    }

    /// The cone with these of its readings made wrong, as the bits of `places` say.
    fn wrong_at(&mut self, space: Space, mut cone: Cone, places: u64, number: u32) -> Cone {
        for (place, quantity) in space.quantities().into_iter().enumerate() {
            if places >> place & 1 == 1 {
                cone[place] = match number {
                    NOT_A_NUMBER => self.not_a_number(),
                    _ => self.out_of_range(quantity),
                };
            }
        }
        cone
    }

    /// X without Y, or Y without X: a* lies beyond 256. No b* can.
    fn beyond_256(&mut self) -> Cone {
        let [most, z] = [50.0 + 100.0 * self.part(), 100.0 * self.part()];
        let least = self.pick(&[0.0, 0.0, 0.1]);
        let cone = self.pick(&[[most, least, z], [least, most, z]]);
        cone.map(f64::to_bits)
    }

    /// The cone refused with this number. What would give a later one may be there, too.
    fn wrong_cone(&mut self, space: Space, mut cone: Cone, number: u32) -> Cone {
        if number == BEYOND_256 || (space == Space::Xyz && self.one_in(2)) {
            cone = self.beyond_256();
        }
        if number == BEYOND_256 {
            return cone;
        }
        if number == NOT_A_NUMBER && self.one_in(2) {
            cone = self.wrong_at(space, cone, 7, OUT_OF_RANGE);
        }
        let places = 1 + self.below(7);
        self.wrong_at(space, cone, places, number)
    }
}

fn put(sort: &mut Sort, at: usize, cone: Cone) {
    for (slice, bits) in sort.readings.iter_mut().zip(cone) {
        slice[at] = bits;
    }
}

/// Each number outside the range of the white, of l or of c, and those at the ends of the last two.
pub fn settings(deliveries: &mut Deliveries) {
    let factors = [&FACTORS[..], &[500, 501, 9_999, 10_000]].concat();
    for _ in 0..120 {
        for space in SPACES {
            let count = deliveries.random.few();
            let sort = deliveries.random.any_sort(space, count);
            let mut wrong = sort.clone();
            for white in WHITES {
                wrong.white = white;
                deliveries.record(&wrong);
            }
            wrong.white = sort.white;
            for &factor in &factors {
                [wrong.l, wrong.c] = [factor, sort.c];
                deliveries.record(&wrong);
                [wrong.l, wrong.c] = [sort.l, factor];
                deliveries.record(&wrong);
            }
        }
    }
}

/// One reading of one cone refused, in each slice and at each place.
pub fn one_cone(deliveries: &mut Deliveries) {
    for count in (2..=8).chain([2; 12]) {
        for at in 0..count {
            wrong_readings(deliveries, count, at, 20);
        }
    }
    for count in [9, 32, 255, 256, 256] {
        for at in [0, 1, count / 2, count - 2, count - 1] {
            wrong_readings(deliveries, count, at, 5);
        }
    }
}

fn wrong_readings(deliveries: &mut Deliveries, count: usize, at: usize, times: u32) {
    for slice in 0..3 {
        for number in [NOT_A_NUMBER, OUT_OF_RANGE] {
            for space in SPACES {
                for _ in 0..times {
                    let random = &mut deliveries.random;
                    let mut sort = random.any_sort(space, count);
                    let cone = sort.cone(at).bits;
                    let wrong = random.wrong_at(space, cone, 1 << slice, number);
                    put(&mut sort, at, wrong);
                    deliveries.record(&sort);
                }
            }
        }
    }
}

/// Two cones refused, the first with either number.
pub fn two_cones(deliveries: &mut Deliveries) {
    let numbers = [NOT_A_NUMBER, OUT_OF_RANGE, BEYOND_256];
    for step in 0..2_000 {
        for first in numbers {
            for second in numbers {
                two_wrong(deliveries, Space::Xyz, step, [first, second]);
                if ![first, second].contains(&BEYOND_256) {
                    two_wrong(deliveries, Space::Lab, step, [first, second]);
                }
            }
        }
    }
}

/// Two cones: the first two, the first and the last, or any.
fn two_wrong(deliveries: &mut Deliveries, space: Space, step: u32, numbers: [u32; 2]) {
    let random = &mut deliveries.random;
    let count = random.few();
    let mut sort = random.any_sort(space, count);
    let later = 1 + random.below(count as u64 - 1) as usize;
    let earlier = random.below(later as u64) as usize;
    let places = match step % 3 {
        0 => [0, 1],
        1 => [0, count - 1],
        _ => [earlier, later],
    };
    for (at, number) in places.into_iter().zip(numbers) {
        let cone = sort.cone(at).bits;
        let wrong = random.wrong_cone(space, cone, number);
        put(&mut sort, at, wrong);
    }
    deliveries.record(&sort);
}

/// Every mixture of what is right and what is wrong: the count, the white, l, c, the cones.
pub fn in_order(deliveries: &mut Deliveries) {
    for wrong in 0_u32..32 {
        let is_wrong = |place: u32| wrong >> place & 1 == 1;
        for step in 0..250 {
            for space in SPACES {
                let random = &mut deliveries.random;
                let count = random.few();
                let mut sort = random.any_sort(space, count);
                if is_wrong(1) {
                    sort.white = random.pick(&WHITES);
                }
                if is_wrong(2) {
                    sort.l = random.pick(&FACTORS);
                }
                if is_wrong(3) {
                    sort.c = random.pick(&FACTORS);
                }
                if is_wrong(4) {
                    let numbers = [NOT_A_NUMBER, OUT_OF_RANGE, BEYOND_256];
                    let number = numbers[step % if space == Space::Lab { 2 } else { 3 }];
                    let cone = sort.cone(0).bits;
                    let wrong = random.wrong_cone(space, cone, number);
                    put(&mut sort, 0, wrong);
                }
                if is_wrong(0) {
                    wrong_count(random, &mut sort);
                }
                deliveries.record(&sort);
            }
        }
    }
}

/// A slice without its last entry, or the cones over and over, more than there may be.
fn wrong_count(random: &mut Random, sort: &mut Sort) {
    let count = sort.readings[0].len();
    match random.below(6) {
        place @ 0..=2 => sort.readings[place as usize].truncate(count - 1),
        3 => sort.results.truncate(count - 1),
        4 => {
            for slice in &mut sort.readings {
                slice.truncate(1);
            }
        }
        _ => {
            for slice in &mut sort.readings {
                *slice = slice.iter().copied().cycle().take(257).collect();
            }
            sort.results = random.results(257);
        }
    }
}
