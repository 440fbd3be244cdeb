//! Tickets whose text is right.

use crate::aimed::one_way_apart;
use crate::drafts::Draft;
use crate::paper::report::report;
use crate::paper::sheet::{verdict, Sheet, Verdict, PLACES};
use crate::paper::standard::accepted;
use crate::readings::{ONE, SIDE};
use crate::records::Tickets;

pub fn right(tickets: &mut Tickets) {
    let mut draft = tickets.random.ticket();
    if tickets.random.one_in(12) {
        let wrong = 1 << tickets.random.below(5);
        tickets.random.put_out_of_range(&mut draft, wrong);
    }
    tickets.draft(&draft);
}

/// Every mixture of what is in range and what is not, in either space, with 8 among it.
pub fn refusals(tickets: &mut Tickets) {
    for wrong in 0..32 {
        for step in 0..600 {
            let random = &mut tickets.random;
            let mut draft = random.ticket();
            if step % 2 == 0 {
                draft.space = 0;
                draft.reference = random.stark();
                draft.test = random.stark();
            }
            random.put_out_of_range(&mut draft, wrong);
            tickets.draft(&draft);
        }
    }
}

/// DE at the ends of what is near. Under CIELAB it is there exactly where it is a multiple of 1/8.
pub fn tolerance_ends(tickets: &mut Tickets) {
    for _ in 0..3_000 {
        let random = &mut tickets.random;
        let mut draft = random.ticket();
        let eighths = 1 + random.below(79) as i64;
        let across = [random.within(SIDE), random.within(SIDE)];
        let l = random.below(20) as i64 * ONE / 8;
        draft.formula = 0;
        draft.space = 1;
        draft.reference = [l, across[0], across[1]];
        draft.test = [l + eighths * ONE / 8, across[0], across[1]];
        draft.tolerance = (eighths * 125 + random.pick(&[-3, -2, 2, 3])).max(100) as u64;
        tickets.draft(&draft);
    }
}

/// l and c where their lines are missing, and others that are easily taken for them.
const WEIGHTINGS: [[u64; 2]; 4] = [[2_000, 1_000], [1_000; 2], [1_000, 2_000], [2_000; 2]];

/// One pair without the lines l and c, and by each of these with them: any pair, or one that lies
/// close, by CMC or CIE94. The tolerance is halfway between the DE by the first and by one of the
/// others, so that the verdict hangs on which it is wherever the two lie apart.
pub fn weightings(tickets: &mut Tickets) {
    for step in 0..4_000 {
        let random = &mut tickets.random;
        let mut draft = random.ticket();
        if step % 4 > 0 {
            draft.formula = random.pick(&[1, 2, 2]);
            draft.space = 1;
            let reference = random.lab();
            draft.reference = reference;
            draft.test = reference.map(|number| number + random.within(3 * ONE));
        }
        let totals = [WEIGHTINGS[0], WEIGHTINGS[1 + step % 3]]
            .map(|factors| judged(&draft, Some(factors)).map(|(_, sheet, _)| sheet.de));
        if let [Some(house), Some(other)] = totals {
            draft.tolerance = ((house + other) * 500 >> 20).clamp(100, 10_000) as u64;
        }
        draft.factors = None;
        by_2_1_and_by_1_1(&draft);
        tickets.draft(&draft);
        for factors in WEIGHTINGS {
            draft.factors = Some(factors);
            tickets.draft(&draft);
        }
    }
}

/// The verdict, the sheet and the report of a draft by these factors, or as it is without its lines.
fn judged(draft: &Draft, factors: Option<[u64; 2]>) -> Option<(Verdict, Sheet, String)> {
    let (standard, test) = accepted(&Draft { factors, ..*draft }.ticket()).ok()?;
    let sheet = standard.sheet(test);
    let verdict = verdict(PLACES, sheet.de, standard.tolerance.into());
    let report = String::from_utf8(report(&standard, test)).expect("a text");
    Some((verdict, sheet, report))
}

/// SCOPE 6.4: by 2:1 DE is not larger than by 1:1, what passes by 1:1 passes, and what fails fails by
/// 1:1. DL is half of it, rounded down, but under CIELAB the same; of the report only l, DE, DL and the
/// verdict are others, under CIELAB only l; and it is not longer.
fn by_2_1_and_by_1_1(draft: &Draft) {
    let both = [None, Some([1_000; 2])].map(|factors| judged(draft, factors));
    assert_eq!(both[0].is_some(), both[1].is_some());
    if let [Some((house, new, report)), Some((equal, old, before))] = both {
        let cielab = report.starts_with("formula=CIELAB\n");
        assert!(new.de <= old.de);
        assert!(equal != Verdict::Pass || house == Verdict::Pass);
        assert!(house != Verdict::Fail || equal == Verdict::Fail);
        assert_eq!(new.dl.abs(), old.dl.abs() / if cielab { 1 } else { 2 });
        assert!(report.len() <= before.len());
        let moving: &[&str] = if cielab {
            &["l="]
        } else {
            &["l=", "DE=", "DL=", "verdict="]
        };
        for (line, old_line) in report.lines().zip(before.lines()) {
            assert!(line == old_line || moving.iter().any(|key| line.starts_with(key)));
        }
    }
}

/// Under CIELAB a pair that differs in one way alone, by what is hard to print: a tie, which is an odd
/// multiple of 1/32, or about half a last digit below a power of ten, where a carry goes through, and
/// from 10 on adds a digit.
pub fn printed_ends(tickets: &mut Tickets) {
    for step in 0..4_000 {
        let random = &mut tickets.random;
        let tie = ONE / 32 * (2 * random.below(1_900) as i64 + 1);
        let carry = random.pick(&[ONE, 10 * ONE, 100 * ONE]) - 50 + random.within(3);
        let size = if step % 2 == 0 { tie } else { carry };
        let mut pair = random.pick(&one_way_apart(size, ONE));
        if random.one_in(2) {
            pair.reverse();
        }
        let mut draft = random.ticket();
        draft.formula = 0;
        draft.space = 1;
        [draft.reference, draft.test] = pair;
        tickets.draft(&draft);
    }
}

/// A specimen of a pair at the end of what is achromatic, or both of them, under any formula. The other
/// one is mostly not achromatic: it has the same hue, or any.
pub fn achromatic_ends(tickets: &mut Tickets) {
    for _ in 0..8_000 {
        let random = &mut tickets.random;
        let l = random.below(100) as i64 * ONE;
        let end = random.beside_four(l);
        let [_, a, b] = end;
        let others = [[l, 2 * a, 2 * b], random.lab(), random.beside_four(l)];
        let mut pair = [end, random.pick(&others)];
        if random.one_in(2) {
            pair.reverse();
        }
        let mut draft = random.ticket();
        draft.formula = random.pick(&[0, 1, 2, 2]);
        draft.space = 1;
        [draft.reference, draft.test] = pair;
        tickets.draft(&draft);
    }
}
