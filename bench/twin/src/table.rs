//! The wake-up table, by a sweep over the states for each region that touches a
//! guard: sixteen guards at once, one bit each.

use crate::check::Checked;

pub struct Table {
    /// For each region and then each guard.
    pub entries: Vec<Entry>,
    /// How many pairs of region and guard are touched: the region's body assigns a
    /// variable that the guard names. The others have no entry.
    pub touched: u32,
}

#[derive(Clone, Copy, Debug, PartialEq, Eq)]
pub struct Entry {
    pub region: usize,
    pub guard: usize,
    pub unconditional: bool,
    pub broadcast: bool,
}

/// What the moves of a region do to the guards.
#[derive(Clone, Copy, Default)]
struct Sweep {
    /// Touched guards that some move makes true.
    made_true: u16,
    /// Touched guards that no move leaves false.
    unconditional: u16,
    /// Guards that some move leaves true.
    left_true: u16,
}

pub fn place(checked: &Checked) -> Table {
    let regions = &checked.monitor.regions;
    let touched = checked.monitor.touched();
    let sweeps: Vec<Sweep> =
        (0..regions.len()).map(|region| sweep(checked, region, touched[region])).collect();
    // A body that does not touch its own guard leaves it true wherever it holds, and a
    // guard with an entry holds in some kept state: the one that the entry's body leads to.
    let mut broadcast = 0;
    for ((region, touched), sweep) in regions.iter().zip(&touched).zip(&sweeps) {
        broadcast |= (sweep.left_true | !touched) & 1 << region.guard;
    }
    let mut entries = Vec::new();
    for (region, sweep) in sweeps.iter().enumerate() {
        for guard in 0..checked.monitor.guards.len() {
            if sweep.made_true >> guard & 1 == 1 {
                entries.push(Entry {
                    region,
                    guard,
                    unconditional: sweep.unconditional >> guard & 1 == 1,
                    broadcast: broadcast >> guard & 1 == 1,
                });
            }
        }
    }
    Table { entries, touched: touched.iter().map(|guards| guards.count_ones()).sum() }
}

/// A region that touches no guard is not swept.
fn sweep(checked: &Checked, region: usize, touched: u16) -> Sweep {
    let mut sweep = Sweep { unconditional: touched, ..Sweep::default() };
    if touched == 0 {
        return sweep;
    }
    let guard = checked.monitor.regions[region].guard;
    let states = checked.kept.iter().zip(&checked.truths).zip(&checked.after[region]);
    for ((&kept, &before), &to) in states {
        if kept && before >> guard & 1 == 1 {
            let after = checked.truths[usize::from(to)];
            sweep.made_true |= !before & after;
            sweep.unconditional &= before | after;
            sweep.left_true |= before & after;
        }
    }
    sweep.made_true &= touched;
    sweep
}

#[cfg(test)]
mod tests {
    use super::{place, Table};
    use crate::check::check;
    use crate::lines::put_table;

    fn table(methods: &str) -> Table {
        let variables = "var x = 0 in 0..1; var y = 0 in 0..1;";
        let file = format!("monitor m {{ {variables} keep true; {methods} }}");
        place(&check(file.as_bytes()).expect("an accepted file"))
    }

    fn lines(table: &Table) -> String {
        let mut out = Vec::new();
        put_table(&mut out, &table.entries);
        String::from_utf8(out).expect("digits and line ends")
    }

    #[test]
    fn box_has_four_touched_pairs() {
        let table = table(
            "method put { waituntil (x == 0) { x := 1; } }
             method get { waituntil (x == 1) { x := 0; } }",
        );
        assert_eq!(table.touched, 4);
        assert_eq!(lines(&table), "00010100\n01000100\n");
    }

    #[test]
    fn pairs_are_touched_by_text() {
        // The first body never assigns y, and the second guard does not depend on it.
        let table = table(
            "method a { waituntil (x == 1) { if (false) { y := 0; } } }
             method b { waituntil (y - y == 0 && !x == 1) { x := 1; } }
             method c { waituntil (true) { } }",
        );
        assert_eq!(table.touched, 3);
        assert_eq!(lines(&table), "01000101\n");
    }

    #[test]
    fn a_body_that_does_not_touch_its_guard_makes_a_broadcast() {
        let set = "method set { waituntil (true) { x := 1; } }";
        let reset = "method reset { waituntil (x == 1) { x := 0; } }";
        let watch = "method watch { waituntil (x == 1) { y := 1 - y; } }";
        let alone = table(&format!("{set} {reset}"));
        assert_eq!((alone.touched, lines(&alone).as_str()), (2, "00010100\n"));
        let watched = table(&format!("{set} {reset} {watch}"));
        assert_eq!((watched.touched, lines(&watched).as_str()), (2, "00010101\n"));
    }
}
