//! Monitors at which threads queue: few variables of few values, few guards that several regions
//! share, signals and broadcasts, and methods of more regions, so that due threads wait too.

use super::draws::Draws;
use super::monitors::{accepted, Accepted, Counts, Region, Sketch, Variable};
use super::tries::add_tries;
use super::words::{integer, respelled_words, words};
use super::Size;

pub fn crowded(draws: &mut Draws, size: Size) -> Accepted {
    let methods = draws.count(2, size.methods.min(5));
    let more = draws.pick(&[0, 0, 1, 1, 2, 4]);
    let variables = draws.pick(&[1, 1, 1, 2]);
    let counts = Counts { variables, methods, regions: (methods + more).min(size.regions) };
    accepted(draws, size, &counts, |draws, sketch| crowd(draws, size, sketch))
}

/// What waits and wakes at one variable: each guard is the same wherever it is asked.
struct Post {
    variable: Variable,
    take: &'static str,
    put: &'static str,
}

fn crowd(draws: &mut Draws, size: Size, sketch: &mut Sketch) {
    let mut posts = Vec::new();
    for variable in &mut sketch.variables {
        variable.lowest = draws.pick(&[0, 0, 0, 0, -1, 1, 3]);
        variable.highest = variable.lowest + draws.pick(&[1, 1, 1, 2, 3]);
        variable.start = draws.pick(&[variable.lowest, variable.lowest, variable.highest]);
        posts.push(Post {
            variable: variable.clone(),
            take: draws.pick(&[">", "==", "!=", "mod 2 =="]),
            put: draws.pick(&["<", "==", "!="]),
        });
    }
    if draws.chance(80) {
        sketch.keep = words("true");
    }
    let at_most = posts.len();
    for (number, method) in sketch.methods.iter_mut().enumerate() {
        for (place, region) in method.regions.iter_mut().enumerate() {
            // The first methods see to it that every variable goes up and down.
            let post = &posts[if number < 2 * at_most { number / 2 } else { draws.below(at_most) }];
            *region = match (number < 2 * at_most && place == 0, number % 2) {
                (true, 0) => post.takes(draws),
                (true, _) => post.puts(draws),
                _ => post.any(draws),
            };
            region.guard = respelled_words(draws, &region.guard);
        }
    }
    sketch.tries.clear();
    if draws.chance(25) {
        add_tries(draws, size, sketch);
    }
}

impl Post {
    fn any(&self, draws: &mut Draws) -> Region {
        match draws.below(10) {
            0..=4 => self.takes(draws),
            5 | 6 => self.puts(draws),
            // Whoever only looks makes the guard's entries broadcasts.
            7 => Region { body: Vec::new(), ..self.takes(draws) },
            8 => Region { guard: words("true"), ..self.puts(draws) },
            _ => Region { guard: words("true"), body: Vec::new() },
        }
    }

    fn takes(&self, draws: &mut Draws) -> Region {
        let Variable { lowest, highest, .. } = self.variable;
        let asked = match self.take {
            "==" => highest,
            "mod 2 ==" => (lowest + 1).rem_euclid(2),
            _ => lowest,
        };
        self.region(draws, self.take, asked, lowest, "-")
    }

    fn puts(&self, draws: &mut Draws) -> Region {
        let Variable { lowest, highest, .. } = self.variable;
        let asked = if self.put == "==" { lowest } else { highest };
        self.region(draws, self.put, asked, highest, "+")
    }

    /// A region whose body takes the variable a step that way, or to that end of its range.
    fn region(
        &self,
        draws: &mut Draws,
        comparison: &str,
        asked: i64,
        end: i64,
        way: &str,
    ) -> Region {
        let name = &self.variable.name;
        let [asked, end] = [asked, end].map(|value| integer(draws, value).join(" "));
        let body = match draws.chance(50) {
            true => format!("{name} := {name} {way} 1 ;"),
            false => format!("{name} := {end} ;"),
        };
        Region { guard: words(&format!("{name} {comparison} {asked}")), body: words(&body) }
    }
}
