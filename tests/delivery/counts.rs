//! Counts of cones, and slices that do not have them.

use crate::numbers::SPACES;
use crate::records::Deliveries;

/// The longest slice that is lent.
const LONGEST: usize = 300;

/// Every count, those at which the answer changes often.
pub fn each_count(deliveries: &mut Deliveries) {
    let changes = [0, 1, 2, 255, 256, 257, LONGEST];
    let often = changes.into_iter().cycle().take(60 * changes.len());
    for count in (0..=LONGEST).chain(often) {
        for space in SPACES {
            deliveries.add_any(space, count);
        }
    }
    // none at all, and a result slice of no entries
    for _ in 0..400 {
        for space in SPACES {
            let mut sort = deliveries.random.any_sort(space, 0);
            sort.results.clear();
            deliveries.record(&sort);
        }
    }
}

/// A length for a slice that is to be as long as others: shorter or longer, often by one.
fn another(deliveries: &mut Deliveries, count: usize) -> usize {
    let shorter = deliveries.random.below(count as u64) as usize;
    let more = deliveries.random.below((LONGEST - count) as u64) as usize;
    let shorter = [count - 1, count - 1, shorter, 0];
    let longer = [count + 1, count + 1, count + 1 + more];
    deliveries.random.pick(&[&shorter[..], &longer].concat())
}

/// One of the three slices shorter or longer than the other two, or each of any length.
pub fn each_length(deliveries: &mut Deliveries) {
    for _ in 0..1_500 {
        for space in SPACES {
            for place in 0..3 {
                let count = deliveries.random.few();
                let mut sort = deliveries.random.any_sort(space, count);
                let length = another(deliveries, count);
                resize(&mut sort.readings[place], length);
                // long enough for the longest of the three
                sort.results = deliveries.random.results(length.max(count));
                deliveries.record(&sort);
            }
        }
    }
    for _ in 0..500 {
        for space in SPACES {
            let mut sort = deliveries.random.any_sort(space, 3);
            let end = deliveries.random.pick(&[5, 12, LONGEST as u64]);
            for place in 0..3 {
                let length = deliveries.random.below(end) as usize;
                resize(&mut sort.readings[place], length);
            }
            let length = deliveries.random.below(end) as usize;
            sort.results = deliveries.random.results(length);
            deliveries.record(&sort);
        }
    }
}

/// The slice with this length: what it holds, over and over.
fn resize(slice: &mut Vec<u64>, length: usize) {
    *slice = slice.iter().copied().cycle().take(length).collect();
}

/// A result slice that is shorter than the count, often by one, or empty; one just as long; a longer
/// one. With 257 cones one of 256 entries, too.
pub fn each_result(deliveries: &mut Deliveries) {
    for _ in 0..1_500 {
        for space in SPACES {
            let count = deliveries.random.few();
            let any = deliveries.random.below(LONGEST as u64) as usize;
            let mut sort = deliveries.random.any_sort(space, count);
            for length in [count - 1, any.min(count - 1), 0, count, any] {
                sort.results = deliveries.random.results(length);
                deliveries.record(&sort);
            }
        }
    }
    for _ in 0..100 {
        for space in SPACES {
            for (count, length) in [(257, 256), (256, 255), (1, 0), (2, 1)] {
                let mut sort = deliveries.random.any_sort(space, count);
                sort.results = deliveries.random.results(length);
                deliveries.record(&sort);
            }
        }
    }
}
