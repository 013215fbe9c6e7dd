//! The check of a file: refusals 1 to 7, 15, 8 and 9 in this order, each over the
//! whole file ("The refusals").

use crate::answer::Answer;
use crate::monitor::Monitor;
use crate::tokens::{tokens, Token};
use crate::tries::fates;
use crate::{grammar, limits, names, ranges, remainders};

/// The monitor that a file gives, or the first refusal.
pub fn check(file: &[u8]) -> Result<Monitor, Answer> {
    let monitor = check_to_8(file)?;
    bodies_stay(&monitor)?;
    Ok(monitor)
}

/// The monitor of a file that all checks up to 8 pass, its tries chosen, or the first
/// refusal.
pub fn check_to_8(file: &[u8]) -> Result<Monitor, Answer> {
    let (_, tree) = check_to_15(file)?;
    let keep_place = tree.keep_place;
    let mut monitor = Monitor::of(tree);
    start_is_kept(&monitor, keep_place)?;
    monitor.fates = fates(&monitor);
    Ok(monitor)
}

/// The tokens and the tree of a file that the checks 1 to 7 and 15 pass, or the first
/// refusal.
pub fn check_to_15(file: &[u8]) -> Result<(Vec<Token>, grammar::File), Answer> {
    limits::bytes(file)?;
    let tokens = tokens(file)?;
    limits::tokens_and_depth(&tokens)?;
    let tree = grammar::read(&tokens, file.len())?;
    limits::declarations(&tokens)?;
    names::names(&tokens)?;
    ranges::ranges(&tree.variables)?;
    remainders::remainders(&tree)?;
    Ok((tokens, tree))
}

/// Refusal 8: the kept condition is false at the start values. No try is chosen yet, and
/// those that will be hold there.
fn start_is_kept(monitor: &Monitor, keep_place: usize) -> Result<(), Answer> {
    if monitor.is_kept(&monitor.start_values()) {
        Ok(())
    } else {
        Err(Answer::at(8, keep_place))
    }
}

/// Refusal 9: lowest region, then lowest state meeting kept condition and guard,
/// whose body leaves a range at any moment, meets a missing value, or ends with the kept
/// condition false.
fn bodies_stay(monitor: &Monitor) -> Result<(), Answer> {
    let kept = monitor.kept_states();
    for (number, region) in monitor.regions.iter().enumerate() {
        for (state, values) in &kept {
            if !monitor.guard_holds(region.guard, values) {
                continue;
            }
            let after = monitor.after_body(number, values);
            if !after.is_some_and(|after| monitor.is_kept(&after)) {
                return Err(Answer::at_both(9, number, *state));
            }
        }
    }
    Ok(())
}
