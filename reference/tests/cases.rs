//! The case generator: the same cases for the same seed, and everything in them.

use reference::cases::draws::Draws;
use reference::cases::made::{is_small, made};
use reference::cases::monitors::any_accepted;
use reference::cases::traces::{reasons, refused_frames, walk};
use reference::cases::{make_case, Size};
use reference::frames::frames;
use reference::lines::{placer, runner};
use reference::tally::Tally;
use reference::{tried, Fate, Machine};

fn tallied(seed: u64, count: usize, size: Size) -> Tally {
    let mut tally = Tally::default();
    for number in 0..count {
        let case = make_case(seed, number, size);
        let placed = String::from_utf8(placer(&case.monitor)).unwrap();
        let ran = String::from_utf8(runner(&case.monitor, &case.trace)).unwrap();
        tally.add(&case.trace, &placed, &ran);
    }
    tally
}

/// At least half of the files have no tries; of those that have some, each fate is met, in
/// accepted files and beside 9, and so are several passes.
fn tries_occur(seed: u64, count: usize, size: Size) {
    let [mut without, mut chosen, mut at_start, mut broken, mut late, mut beside_9] = [0; 6];
    for number in 0..count {
        let case = make_case(seed, number, size);
        without += usize::from(!case.monitor.windows(3).any(|bytes| bytes == b"try"));
        let (verdict, Some(fates)) = tried(&case.monitor) else { continue };
        beside_9 += usize::from(verdict.is_err() && !fates.is_empty());
        for fate in fates {
            match fate {
                Fate::Chosen => chosen += 1,
                Fate::FalseAtStart => at_start += 1,
                Fate::Broken { pass: 1, .. } => broken += 1,
                Fate::Broken { .. } => late += 1,
            }
        }
    }
    let seen = [chosen, at_start, broken, late];
    assert!(2 * without >= count, "{without}");
    assert!(seen.iter().all(|seen| 50 * seen >= count), "{seen:?}");
    assert!(100 * beside_9 >= count, "{beside_9}");
}

#[test]
fn full_cases_have_tries() {
    tries_occur(7, 400, Size::FULL);
}

#[test]
fn small_cases_have_tries() {
    tries_occur(8, 400, Size::SMALL);
}

/// Those made by hand: enough of them, and enough that are small.
#[test]
fn cases_made_for_tries() {
    let made = made();
    assert!(made.len() >= 60);
    assert!(made.iter().filter(|made| is_small(&made.case)).count() >= 24);
    let mut names: Vec<&str> = made.iter().map(|made| made.what).collect();
    names.sort();
    names.dedup();
    assert_eq!(names.len(), made.len());
}

fn holds_everything(tally: &Tally) {
    let at_least = 3 * tally.cases / 100;
    for number in (1..=9).chain(12..=15) {
        assert!(tally.refused[number] >= at_least, "{number}\n{}", tally.text());
    }
    assert!(4 * tally.with_a_run >= tally.cases, "{}", tally.text());
    assert!(tally.parted >= at_least, "{}", tally.text());
}

#[test]
fn full_cases_hold_everything() {
    holds_everything(&tallied(7, 200, Size::FULL));
}

#[test]
fn small_cases_hold_everything() {
    holds_everything(&tallied(8, 400, Size::SMALL));
}

#[test]
fn small_cases_are_small() {
    for number in 0..400 {
        let case = make_case(9, number, Size::SMALL);
        // Refusal 1 alone needs a long file.
        assert!(case.monitor.len() <= 450 || case.monitor.len() > 8192);
        assert!(frames(&case.trace).map_or(0, |frames| frames.len()) <= 16);
    }
}

/// Every reason to refuse a frame is met on walks, for 13 and 14 alike.
#[test]
fn every_reason_occurs() {
    let mut seen = Vec::new();
    for case in 0..300 {
        let mut draws = Draws::of(11, case);
        let machines = any_accepted(&mut draws, Size::SMALL).machines;
        for machine in [Machine::Plain, Machine::Table] {
            for record in walk(&mut draws, &machines, machine, 12).records {
                for number in [13, 14] {
                    let found = refused_frames(&machines, machine, &record, number);
                    seen.extend(found.into_iter().map(|(reason, _)| reason));
                }
            }
        }
    }
    for reason in [reasons(13), reasons(14)].concat() {
        let count = seen.iter().filter(|other| **other == reason).count();
        assert!(count >= 10, "{reason:?} {count}");
    }
}

#[test]
fn the_same_seed_gives_the_same_cases() {
    for number in 0..60 {
        let [one, other] = [0, 1].map(|_| make_case(10, number, Size::SMALL));
        assert_eq!((one.monitor, one.trace), (other.monitor, other.trace));
    }
}

/// A refused file's variable may have its lowest value above its highest, and tries are drawn all
/// the same.
#[test]
fn a_bad_range_can_be_drawn_from() {
    let mut draws = Draws::of(12, 0);
    assert_eq!([draws.between(3, 2), draws.between(3, -9), draws.between(3, 3)], [3; 3]);
}
