//! Deliveries of which the sheet cases of SCOPE 12.1 tell every figure, or that need none (SCOPE 13).

use super::conversion::{Colour, WHITES};
use super::delivery::{handed, Refused, Sort};
use super::readings::{handed_back, millionths, GRID_ONE as ONE, INFINITY, LIGHTEST, SIDE};
use super::ticket::Space;

pub fn check() {
    means();
    differences();
    results();
    refused_settings();
    refused_cones();
}

const NOT_A_NUMBER: u64 = INFINITY | 1;

/// By white 1, with l = c = 1, and an entry more in the result slice than there are cones.
fn sort(space: Space, cones: &[[u64; 3]]) -> Sort {
    Sort {
        white: 1,
        l: 1_000,
        c: 1_000,
        space,
        readings: [0, 1, 2].map(|place: usize| cones.iter().map(|cone| cone[place]).collect()),
        results: vec![NOT_A_NUMBER; cones.len() + 1],
    }
}

fn of_colours(colours: &[Colour]) -> Sort {
    let cones: Vec<[u64; 3]> = colours.iter().map(|cone| cone.map(handed_back)).collect();
    sort(Space::Lab, &cones)
}

fn mean_of(sort: &Sort) -> Colour {
    sort.sorted().expect("nothing is refused").mean
}

/// 50, and a* and b*, in whole numbers of one.
fn at_50(a: i64, b: i64) -> Colour {
    [50 * ONE, a * ONE, b * ONE]
}

/// SCOPE 13.2: the nearest unit, a tie away from zero, each of the three by itself.
fn means() {
    let cases: [(&[i64], i64); 10] = [
        (&[1, 2], 2),
        (&[0, 1], 1),
        (&[-1, 1], 0),
        (&[1, 1, 2], 1),
        (&[1, 2, 2], 2),
        (&[0, 0, 1], 0),
        (&[5, 0, 0, 0, 1, 1], 1),
        (&[5, 0, 0, 0, 1, 3], 2),
        (&[0, 0, 0, 2], 1),
        (&[SIDE, SIDE - 1, SIDE], SIDE),
    ];
    for (units, mean) in cases {
        let sums = |[l, a, b]: Colour| -> Vec<Colour> {
            let colour = |&units: &i64| [ONE + l * units.abs(), a * units, b * units];
            units.iter().map(colour).collect()
        };
        assert_eq!(mean_of(&of_colours(&sums([0, 1, -1]))), [ONE, mean, -mean]);
        assert_eq!(mean_of(&of_colours(&sums([0, -1, 0]))), [ONE, -mean, 0]);
    }
    let lightness = [[0, -1, 1], [1, 0, 0]];
    assert_eq!(mean_of(&of_colours(&lightness)), [1, -1, 1]);
    // as many as there may be, at the ends of the ranges
    let end = [LIGHTEST, -SIDE, SIDE];
    assert_eq!(mean_of(&of_colours(&[end; 256])), end);
    // cases 1 and 2, white and black: X, Y, Z of half the white would have an L* of 76
    let white = WHITES[0].map(millionths);
    let both = sort(Space::Xyz, &[white, [0; 3]]);
    assert_eq!(mean_of(&both), at_50(0, 0));
}

/// SCOPE 13.3: cases 7 to 9, each about a mean of (50, 0, 0). The lowest number of several.
fn differences() {
    let darker = [[49 * ONE, 0, 0], [51 * ONE, 0, 0]];
    let stronger = [at_50(3, 4), at_50(-3, -4)];
    let both = [stronger[0], darker[0], stronger[1], darker[1]];
    let [seven, nine] = [963_487, 8_217_686];
    let one = [LIGHTEST, -SIDE, 5];
    let cases: [(&[Colour], &[i64], usize); 5] = [
        (&darker, &[seven; 2], 0),
        (
            &[at_50(0, 0), stronger[1], stronger[0]],
            &[0, nine, nine],
            1,
        ),
        (&both, &[nine, seven, nine, seven], 0),
        (&[darker, stronger].concat(), &[seven, seven, nine, nine], 2),
        (&[one; 3], &[0; 3], 0),
    ];
    for (colours, differences, farthest) in cases {
        let sorted = of_colours(colours).sorted().expect("nothing is refused");
        assert_eq!(sorted.colours, colours);
        assert_eq!(sorted.differences, differences);
        assert_eq!(sorted.farthest, farthest);
    }
    let mut twice = of_colours(&darker);
    twice.l = 2_000;
    assert_eq!(twice.sorted().expect("l = 2").differences, [481_743; 2]);
}

/// SCOPE 13.4: entries past the count stay, and so do all on a refusal; the bytes of the struct.
fn results() {
    let mut grey = of_colours(&[at_50(0, 0), at_50(0, 0)]);
    let sorted = grey.sorted();
    assert_eq!(grey.results_after(&sorted), [0, 0, NOT_A_NUMBER]);
    let fifty = 50.0_f64.to_le_bytes();
    let bytes = [&[0; 8], &fifty[..], &[0; 20], &[2, 0, 0, 0]].concat();
    assert_eq!(handed(&sorted), bytes);

    grey.readings[2][1] = NOT_A_NUMBER;
    let sorted = grey.sorted();
    assert_eq!(grey.results_after(&sorted), [NOT_A_NUMBER; 3]);
    let bytes = [&[5, 0, 0, 0, 1, 0, 0, 0], &[0; 32][..]].concat();
    assert_eq!(handed(&sorted), bytes);
}

fn refused(sort: &Sort, number: u32, cone: usize) {
    assert_eq!(sort.sorted(), Err(Refused { number, cone }));
    assert_eq!(sort.faults().first(), Some(&Refused { number, cone }));
}

/// SCOPE 13.5: 11; 2; 3 for l; 3 for c. No cone's number goes with them.
fn refused_settings() {
    let grey = [at_50(0, 0); 257];
    for count in [0, 1, 257] {
        refused(&of_colours(&grey[..count]), 11, 0);
    }
    for count in [2, 255, 256] {
        assert_eq!(mean_of(&of_colours(&grey[..count])), at_50(0, 0));
    }
    let right = of_colours(&grey[..3]);
    for place in 0..3 {
        let mut wrong = right.clone();
        wrong.readings[place].pop();
        refused(&wrong, 11, 0);
        wrong.readings[place].extend([0; 2]);
        refused(&wrong, 11, 0);
    }
    let mut short = right.clone();
    short.results.truncate(3);
    assert_eq!(mean_of(&short), at_50(0, 0));
    short.results.truncate(2);
    refused(&short, 11, 0);

    // each put right in turn
    let mut wrong = short;
    wrong.readings[0][0] = NOT_A_NUMBER;
    [wrong.white, wrong.l, wrong.c] = [0, 499, 10_001];
    refused(&wrong, 11, 0);
    wrong.results.push(0);
    refused(&wrong, 2, 0);
    wrong.white = 4;
    refused(&wrong, 3, 0);
    wrong.l = 500;
    refused(&wrong, 3, 0);
    wrong.c = 10_000;
    refused(&wrong, 5, 0);
}

/// SCOPE 8.2: the first refused cone decides, and not the lowest number.
fn refused_cones() {
    let [one, x_alone, over] = [1.0, 94.811, 150.5].map(f64::to_bits);
    let right = [one; 3];
    let five = [over, NOT_A_NUMBER, 0];
    let six = [x_alone, 0, over];
    let eight = [x_alone, 0, 0];
    for (cones, number, cone) in [
        ([eight, five, right], 8, 0),
        ([five, eight, right], 5, 0),
        ([right, six, five], 6, 1),
        ([right, eight, six], 8, 1),
        ([right, right, five], 5, 2),
    ] {
        refused(&sort(Space::Xyz, &cones), number, cone);
    }
}
