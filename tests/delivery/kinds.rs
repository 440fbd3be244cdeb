//! Deliveries of every kind, most of them accepted.

use crate::numbers::{Cone, SPACES};
use crate::paper::conversion::Colour;
use crate::paper::readings::{GRID_ONE as ONE, LIGHTEST, SIDE, SIGN};
use crate::paper::ticket::Space;
use crate::records::Deliveries;

pub fn everywhere(deliveries: &mut Deliveries) {
    for _ in 0..18_000 {
        for space in SPACES {
            let count = deliveries.random.few();
            deliveries.add_any(space, count);
        }
    }
    for _ in 0..250 {
        for space in SPACES {
            let count = 33 + deliveries.random.below(224) as usize;
            deliveries.add_any(space, count);
        }
    }
}

/// What a dyer delivers: no cone is more than a DE of 2 or so from the others.
pub fn tight(deliveries: &mut Deliveries) {
    for _ in 0..8_000 {
        let random = &mut deliveries.random;
        let count = random.few();
        let centre = random.colour_within(60 * ONE);
        let most = random.pick(&[ONE / 8, ONE / 4, ONE / 2]);
        let colours: Vec<Colour> = (0..count).map(|_| random.beside(centre, most)).collect();
        let cones = random.all_read_as(&colours);
        deliveries.add(Space::Lab, &cones);

        let random = &mut deliveries.random;
        let centre = random.tristimulus();
        let most = random.pick(&[0.002, 0.005, 0.01]);
        let cones: Vec<Cone> = (0..count)
            .map(|_| random.tristimulus_beside(centre, most))
            .collect();
        deliveries.add(Space::Xyz, &cones);
    }
}

/// Each of X, Y and Z below the conversion's cut, above it, or just there.
pub fn dark(deliveries: &mut Deliveries) {
    // SCOPE 5: 0.008856 of D65/10's white, and of another one nearly
    let cuts = [0.839646, 0.8856, 0.950284];
    for _ in 0..6_000 {
        let random = &mut deliveries.random;
        let count = random.few();
        let mut cones: Vec<Cone> = (0..count)
            .map(|_| random.tristimulus_beside(cuts, 0.6))
            .collect();
        for cone in &mut cones {
            if random.one_in(4) {
                let millionths = 885_600 + random.within(2);
                cone[1] = (millionths as f64 / 1e6).to_bits();
            }
            // black itself
            if random.one_in(20) {
                *cone = [random.pick(&[0, SIGN]); 3];
            }
        }
        deliveries.add(Space::Xyz, &cones);
    }
}

/// X without Y, or Y without X: a* lies beyond 256 or not far below, of one cone or of several.
pub fn far(deliveries: &mut Deliveries) {
    for _ in 0..3_000 {
        let random = &mut deliveries.random;
        let count = random.pick(&[2, 2, 3]);
        let mut cones = random.cones(Space::Xyz, count);
        for cone in &mut cones {
            let most = 22.0 + 7.0 * random.part();
            let far = random.pick(&[[most, 0.0, most], [0.0, most, most]]);
            if random.one_in(2) {
                *cone = far.map(f64::to_bits);
            }
        }
        deliveries.add(Space::Xyz, &cones);
    }
}

/// Colours about neutral, from a unit to a little more than what is achromatic, and means that are
/// neutral themselves.
pub fn grey(deliveries: &mut Deliveries) {
    for _ in 0..8_000 {
        let random = &mut deliveries.random;
        let count = random.few();
        let most = random.pick(&[1, 2, 64, ONE, 3 * ONE, 6 * ONE]);
        let l = random.colour_within(0)[0];
        let mut colours: Vec<Colour> = (0..count).map(|_| random.beside([l, 0, 0], most)).collect();
        if random.one_in(2) {
            let opposite = colours.iter().map(|&[l, a, b]| [l, -a, -b]);
            colours.extend(opposite.collect::<Vec<_>>());
        }
        let cones = random.all_read_as(&colours);
        deliveries.add(Space::Lab, &cones);
    }
}

/// The ends of the ranges, and a unit beside them; and as many cones as there may be, so that the sum
/// of their units is as large as it can be.
pub fn ends(deliveries: &mut Deliveries) {
    for _ in 0..6_000 {
        let count = deliveries.random.few();
        at_ends(deliveries, count);
    }
    for _ in 0..300 {
        let count = 200 + deliveries.random.below(57) as usize;
        at_ends(deliveries, count);
    }
    for _ in 0..2_000 {
        let random = &mut deliveries.random;
        let count = random.few();
        let cones: Vec<Cone> = (0..count)
            .map(|_| random.pick(&[[0.0; 3], [150.0; 3], [142.0, 150.0, 150.0]]))
            .map(|cone| cone.map(f64::to_bits))
            .collect();
        deliveries.add(Space::Xyz, &cones);
    }
}

fn at_ends(deliveries: &mut Deliveries, count: usize) {
    let random = &mut deliveries.random;
    let lightness = [0, 1, LIGHTEST - 1, LIGHTEST];
    let sides = [-SIDE, 1 - SIDE, -1, 0, 1, SIDE - 1, SIDE];
    // all at one of the ends, or each at any
    let alike = random.one_in(2);
    let end = [[0, LIGHTEST], [-SIDE, SIDE], [-SIDE, SIDE]].map(|ends| random.pick(&ends));
    let colours: Vec<Colour> = (0..count)
        .map(|_| {
            let [a, b] = [0; 2].map(|_: i32| random.pick(&sides));
            let any = [random.pick(&lightness), a, b];
            if alike && !random.one_in(8) {
                end
            } else {
                any
            }
        })
        .collect();
    let cones = random.all_read_as(&colours);
    deliveries.add(Space::Lab, &cones);
}
