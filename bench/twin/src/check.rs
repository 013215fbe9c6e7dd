//! The check of a file: refusals 1 to 7, 15, 8 and 9 in this order, and before 9 the
//! choice among its tries. Of an accepted file it leaves all that the table and the machines look up.

use crate::grammar::parse;
use crate::monitor::{Condition, Monitor, Operand, Values, Variable};
use crate::tokens::tokens;
use crate::Refusal;

const MOST_STATES: usize = 4096;

/// A monitor with what holds in each state and where each body leads.
pub struct Checked {
    pub monitor: Monitor,
    /// The values of each state.
    pub states: Vec<Values>,
    /// Whether a state meets keep and the chosen tries.
    pub kept: Vec<bool>,
    /// The guards that hold in a state, one bit a guard.
    pub truths: Vec<u16>,
    /// For each region, the state after its body from each state where keep and its
    /// guard hold; `NONE` from the others, and where the body leaves a range or meets a
    /// missing value.
    pub after: Vec<Vec<u16>>,
}

/// The number of no state.
const NONE: u16 = u16::MAX;

pub fn check(file: &[u8]) -> Result<Checked, Refusal> {
    let monitor = parse_checked(file)?;
    let states = monitor.states();
    let mut kept: Vec<bool> = states.iter().map(|values| monitor.keep.holds(values)).collect();
    let truths: Vec<u16> = states.iter().map(|values| truths_at(&monitor.guards, values)).collect();
    let mut after = Vec::with_capacity(monitor.regions.len());
    for region in &monitor.regions {
        let mut row = vec![NONE; states.len()];
        for (state, values) in states.iter().enumerate() {
            if !kept[state] || truths[state] >> region.guard & 1 == 0 {
                continue;
            }
            let mut values = *values;
            if monitor.run(&region.body, &mut values) {
                row[state] = monitor.number_of(&values) as u16;
            }
        }
        after.push(row);
    }
    if !monitor.tries.is_empty() {
        let tries: Vec<u16> =
            states.iter().map(|values| truths_at(&monitor.tries, values)).collect();
        let start = monitor.number_of(&monitor.start_values());
        let chosen = chosen(&tries, &after, start);
        for (kept, tries) in kept.iter_mut().zip(&tries) {
            *kept &= tries & chosen == chosen;
        }
    }
    for (number, region) in monitor.regions.iter().enumerate() {
        for (state, &to) in after[number].iter().enumerate() {
            let runs = kept[state] && truths[state] >> region.guard & 1 == 1;
            if runs && (to == NONE || !kept[usize::from(to)]) {
                return Err(Refusal { number: 9, first: number, second: state });
            }
        }
    }
    Ok(Checked { monitor, states, kept, truths, after })
}

/// The chosen tries, one bit a try, from those that hold in each state: pass by pass all
/// are dropped that some body breaks.
fn chosen(tries: &[u16], after: &[Vec<u16>], start: usize) -> u16 {
    let mut set = tries[start];
    loop {
        let mut left = set;
        for row in after {
            for (&before, &to) in tries.iter().zip(row) {
                if to != NONE && before & set == set {
                    left &= tries[usize::from(to)];
                }
            }
        }
        if left == set {
            return set;
        }
        set = left;
    }
}

/// The monitor of a file that all refusals up to 8 let pass.
pub fn parse_checked(file: &[u8]) -> Result<Monitor, Refusal> {
    let tokens = tokens(file)?;
    let monitor = parse(&tokens, file.len())?;
    ranges(&monitor.variables)?;
    remainders(&monitor)?;
    if !monitor.keep.holds(&monitor.start_values()) {
        return Err(Refusal::at(8, monitor.keep_place));
    }
    Ok(monitor)
}

/// Refusal 7, variable by variable.
fn ranges(variables: &[Variable]) -> Result<(), Refusal> {
    let mut product = 1;
    for variable in variables {
        let &Variable { place, start, lowest, highest } = variable;
        let good = -128 <= lowest && lowest <= start && start <= highest && highest <= 127;
        if !good {
            return Err(Refusal::at(7, place));
        }
        product *= variable.size();
        if product > MOST_STATES {
            return Err(Refusal::at(7, place));
        }
    }
    Ok(())
}

/// Refusal 15: the first `mod` whose divisor is below 1 in some state.
fn remainders(monitor: &Monitor) -> Result<(), Refusal> {
    let lacks = |(_, divisor): &&(usize, _)| Operand::least(*divisor, &monitor.variables) < 1;
    match monitor.divisors.iter().find(lacks) {
        Some((place, _)) => Err(Refusal::at(15, *place)),
        None => Ok(()),
    }
}

/// The conditions that hold, one bit each.
fn truths_at(conditions: &[Condition], values: &Values) -> u16 {
    let conditions = conditions.iter().enumerate();
    conditions
        .fold(0, |truths, (bit, condition)| truths | u16::from(condition.holds(values)) << bit)
}

#[cfg(test)]
mod tests {
    use super::check;

    /// The number and places of the refusal of a file with x in 0..1 and y in 1..2, or noughts.
    fn answer(keep: &str, body: &str) -> (u8, usize, usize) {
        let variables = "var x = 0 in 0..1; var y = 1 in 1..2;";
        let region = format!("waituntil (x mod y == x mod 1) {{ {body} }}");
        let file = format!("monitor m {{ {variables} keep {keep}; method m {{ {region} }} }}");
        check(file.as_bytes()).map_or_else(|r| (r.number, r.first, r.second), |_| (0, 0, 0))
    }

    #[test]
    fn remainders_below_0() {
        assert_eq!(
            answer("-7 mod 3 == 2 && 1 - -7 mod 3 == -1 && 1 - 7 mod 3 == 0", ""),
            (0, 0, 0)
        );
        assert_eq!(answer("-7 mod 3 != 2", ""), (8, 50, 0));
    }

    #[test]
    fn a_divisor_below_1_in_keep() {
        assert_eq!(answer("true || y mod x == 0", ""), (15, 65, 0));
        assert_eq!(answer("false && y mod y == 1 mod -2", ""), (15, 77, 0));
    }

    #[test]
    fn a_divisor_below_1_in_a_body() {
        assert_eq!(answer("true", "x := y mod x;"), (9, 0, 0));
        assert_eq!(answer("true", "if (false && 1 mod x == 0) { }"), (9, 0, 0));
        assert_eq!(answer("true", "if (x > 0) { x := y mod x; }"), (0, 0, 0));
    }
}
