//! Deliveries whose mean, or whose farthest cone, a wrong rule could miss.

use crate::numbers::SPACES;
use crate::paper::conversion::Colour;
use crate::paper::readings::{GRID_ONE as ONE, LIGHTEST, SIDE};
use crate::paper::ticket::Space;
use crate::records::Deliveries;

/// A mean half way between two units, of each coordinate, and of sums a unit to either side.
pub fn ties(deliveries: &mut Deliveries) {
    for _ in 0..24_000 {
        let random = &mut deliveries.random;
        let count = random.pick(&[2, 2, 4, 4, 6, 8]);
        let side = random.pick(&[0, 2, 12 * ONE, 100 * ONE, SIDE]);
        let centre = random.colour_within(side);
        let most = random.pick(&[1, 8, ONE / 2, 4 * ONE, 100 * ONE]);
        let mut colours: Vec<Colour> = (0..count).map(|_| random.beside(centre, most)).collect();
        for (place, highest) in [LIGHTEST, SIDE, SIDE].into_iter().enumerate() {
            let beyond = count as i64 / 2 + random.pick(&[0, 0, 1, -1]);
            put_sum(&mut colours, place, highest, beyond);
        }
        let cones = random.all_read_as(&colours);
        deliveries.add(Space::Lab, &cones);
    }
}

/// Moves one cone, so that the sum lies that much beyond a multiple of the count.
fn put_sum(colours: &mut [Colour], place: usize, highest: i64, beyond: i64) {
    let count = colours.len() as i64;
    let sum: i64 = colours.iter().map(|colour| colour[place]).sum();
    let units = &mut colours[0][place];
    *units += (beyond - sum).rem_euclid(count);
    if *units > highest {
        *units -= count;
    }
}

/// The same colour throughout, by one reading or by several.
pub fn one_colour(deliveries: &mut Deliveries) {
    for _ in 0..2_000 {
        let random = &mut deliveries.random;
        let count = random.few();
        let side = random.pick(&[0, 2, 4 * ONE, SIDE]);
        let colour = random.colour_within(side);
        let cones = random.all_read_as(&vec![colour; count]);
        deliveries.add(Space::Lab, &cones);

        let random = &mut deliveries.random;
        let centre = random.tristimulus();
        let cone = random.tristimulus_beside(centre, 0.5);
        // less than half a millionth away where there are six places at most
        let again = cone.map(|bits| (f64::from_bits(bits) + 4e-7).to_bits());
        let mut cones = vec![cone; count];
        cones[0] = random.pick(&[cone, again]);
        deliveries.add(Space::Xyz, &cones);
    }
}

/// Cones in pairs about the mean: lighter and darker by as much, or of opposite hue about a neutral
/// mean. Both of a pair have the same DE.
pub fn mirrored(deliveries: &mut Deliveries) {
    for step in 0..6_000 {
        let random = &mut deliveries.random;
        let most = random.pick(&[1, 4, ONE / 2, 3 * ONE]);
        let side = random.pick(&[4 * ONE, 100 * ONE]);
        let neutral = step % 2 == 0;
        let [_, a, b] = random.colour_within(if neutral { 0 } else { side });
        let l = LIGHTEST / 2 + random.within(50 * ONE);
        let mut colours = Vec::new();
        for _ in 0..random.pick(&[1, 1, 2, 3]) {
            let [light, red, yellow] = [0; 3].map(|_: i32| random.within(most));
            let pair = if neutral {
                [[l, red, yellow], [l, -red, -yellow]]
            } else {
                [[l + light, a, b], [l - light, a, b]]
            };
            colours.extend(pair);
        }
        if random.one_in(2) {
            colours.push([l, a, b]);
        }
        random.shuffle(&mut colours);
        let cones = random.all_read_as(&colours);
        deliveries.add(Space::Lab, &cones);
    }
}

/// A few cones of one colour far from the others.
pub fn repeated(deliveries: &mut Deliveries) {
    for _ in 0..3_000 {
        for space in SPACES {
            let random = &mut deliveries.random;
            let count = 3 + random.below(5) as usize;
            let mut cones = random.cones(space, count);
            let outside = random.cones(space, 1)[0];
            let times = 2 + random.below(2) as usize;
            cones.extend(vec![outside; times]);
            random.shuffle(&mut cones);
            deliveries.add(space, &cones);
        }
    }
}

/// The same cones in another order. SCOPE 13.6: neither the mean nor any cone's own DE is another.
pub fn permuted(deliveries: &mut Deliveries) {
    for _ in 0..2_500 {
        for space in SPACES {
            let random = &mut deliveries.random;
            let count = random.few();
            let sort = random.any_sort(space, count);
            let mut order: Vec<usize> = (0..count).collect();
            random.shuffle(&mut order);
            let mut other = sort.clone();
            for (slice, from) in other.readings.iter_mut().zip(&sort.readings) {
                *slice = order.iter().map(|&cone| from[cone]).collect();
            }
            deliveries.record(&sort);
            deliveries.record(&other);
            if let [Ok(first), Ok(second)] = [sort.sorted(), other.sorted()] {
                assert_eq!(first.mean, second.mean);
                for (place, &cone) in order.iter().enumerate() {
                    assert_eq!(first.differences[cone], second.differences[place]);
                }
                deliveries.seen.note("permuted", 0, sort != other);
            }
        }
    }
}
