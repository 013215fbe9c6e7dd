//! A count of answers by their numbers.

use std::fmt::Write;

/// How often each number 0 to 15 was answered: by `placer`, by `runner` for the
/// plain machine, and for the table's. A file's refusal counts for all three.
#[derive(Clone, Default)]
pub struct Answers {
    pub placer: [usize; 16],
    pub plain: [usize; 16],
    pub table: [usize; 16],
}

impl Answers {
    /// Counts what the programs printed for one input.
    pub fn add(&mut self, placed: &[u8], ran: &[u8]) {
        let lines: Vec<usize> = ran.split_inclusive(|byte| *byte == b'\n').map(number).collect();
        self.placer[number(placed)] += 1;
        self.plain[lines[0]] += 1;
        self.table[lines[lines.len() - 1]] += 1;
    }

    pub fn join(&mut self, other: &Answers) {
        let sums = [&mut self.placer, &mut self.plain, &mut self.table];
        let others = [&other.placer, &other.plain, &other.table];
        for (sums, others) in sums.into_iter().zip(others) {
            for (sum, other) in sums.iter_mut().zip(others) {
                *sum += other;
            }
        }
    }

    pub fn text(&self) -> String {
        let mut text = format!("{:>6} {:>9} {:>9} {:>9}\n", "answer", "placer", "plain", "table");
        for number in (0..16).filter(|number| ![10, 11].contains(number)) {
            let [placer, plain, table] = [self.placer, self.plain, self.table].map(|c| c[number]);
            writeln!(text, "{number:>6} {placer:>9} {plain:>9} {table:>9}").unwrap();
        }
        text
    }
}

/// The number of an answer. A refusal is one line of ten digits; a line of a table
/// has eight, and that of a record more.
fn number(printed: &[u8]) -> usize {
    let digits = printed.strip_suffix(b"\n").filter(|digits| digits.len() == 10);
    let number = digits.and_then(|digits| std::str::from_utf8(&digits[..2]).ok());
    number.map_or(0, |number| usize::from_str_radix(number, 16).expect("two digits"))
}
