//! Touched pairs of region and guard (document 02, E2): files counted by hand, every pair of many
//! drawn files counted again from their tokens, and that a pair which is not touched has no entry.

mod common;
use common::{answer, file, places, regions, table, BOX};
use reference::cases::counted::{counted, is_small};
use reference::cases::draws::Draws;
use reference::cases::made::made;
use reference::cases::monitors::{any_accepted, Sketch};
use reference::cases::words::{laid_out, words, Layout};
use reference::cases::{make_case, Size};
use reference::evaluation::holds;
use reference::grammar::{self, Block, Condition, Expression, Name, Operand, Statement, Term};
use reference::hostile::Bases;
use reference::lines::replay_pairs;
use reference::pairs;
use reference::tokens::{tokens, Kind, Token};
use reference::{check, place, Monitor};
use std::fs;
use std::path::Path;

/// How many pairs placing reports; 0 of a refused file.
fn pairs_of(file: impl AsRef<[u8]>) -> usize {
    place(file.as_ref(), usize::MAX).map_or(0, |placed| placed.pairs)
}

fn wants(file: &str, pairs: usize) {
    assert_eq!((answer(file).0, pairs_of(file)), (0, pairs), "{file}");
}

// Counted by hand.

#[test]
fn cases_counted_by_hand() {
    let counted = counted();
    assert!(counted.len() >= 40);
    assert!(counted.iter().filter(|one| is_small(&one.case)).count() >= 24);
    for one in &counted {
        assert_eq!(pairs_of(&one.case.monitor), one.pairs, "{}", one.what);
        let refused = one.what.starts_with("refused");
        assert_eq!(check(&one.case.monitor).is_err(), refused, "{}", one.what);
        assert!(!refused || one.pairs == 0);
        // The list has each file on a line.
        assert!(!one.case.monitor.contains(&b'\n'));
    }
    let mut names: Vec<&str> = counted.iter().map(|one| one.what).collect();
    names.sort();
    names.dedup();
    assert_eq!(names.len(), counted.len());
}

fn example(name: &str) -> Vec<u8> {
    let examples = Path::new(env!("CARGO_MANIFEST_DIR")).join("../examples");
    fs::read(examples.join(name).join("monitor.txt")).unwrap_or_default()
}

#[test]
fn examples_of_the_repository() {
    for (name, pairs) in [
        // Both regions assign full, which both guards name.
        ("box", 4),
        // Both regions assign leaving, which both guards name.
        ("barrier", 4),
        // All three regions assign count, which all three guards name.
        ("bounded-buffer", 9),
        // All three regions assign turn, which all three guards name.
        ("round-robin", 9),
        // Guards 0 and 2 name readers and writer, guard 1 none. Every region assigns one of
        // the two: 4 * 2.
        ("readers-limit", 8),
        // Guard 0 names writerIn, guard 1 none, guard 2 readers and writerIn. Regions 0 and 1
        // assign readers: guard 2. Regions 2 and 3 assign writerIn: guards 0 and 2.
        ("readers-writers", 2 + 2 * 2),
        // Guards 0 and 1 name logged and seq, guard 2 also shown. Regions 0 to 2 assign seq:
        // all. Region 3 assigns logged: all. Region 4 assigns shown and lamp: guard 2.
        ("breaker", 3 * 3 + 3 + 1),
        // Guard 3 names shown, seq, lamp and closed. Regions 0 to 2 touch it by seq and
        // closed, region 3 not, region 4 by shown and lamp, region 5 (lamp) it alone.
        ("breaker-guesses", 3 * 4 + 3 + 2 + 1),
        // Guards 0, 2, 4: the caller's ticket and next. Guards 1, 3, 5: the ticket, serving
        // and inside. Guards 6 and 7: inside. Regions 0, 2, 4 assign the ticket and next:
        // guards 0, 2, 4 and the one of 1, 3, 5 that names the ticket. Regions 1, 3, 5 assign
        // next, serving and inside: all eight. Regions 6 and 7 assign inside: 1, 3, 5, 6, 7.
        ("ticketed-readers-writers", 3 * 4 + 3 * 8 + 2 * 5),
    ] {
        assert_eq!(pairs_of(example(name)), pairs, "{name}");
    }
}

/// The files of the refusals 1 to 9 and 15 have no count. Those of 12 to 14 are good, and all of them are
/// Box or the barrier.
#[test]
fn refusals_of_the_repository() {
    let at = Path::new(env!("CARGO_MANIFEST_DIR")).join("../examples/refusals");
    let mut seen = [0; 16];
    for entry in fs::read_dir(at).unwrap() {
        let name = entry.unwrap().file_name().into_string().unwrap();
        let number: usize = name.split('-').next().unwrap().parse().unwrap();
        let monitor = example(&format!("refusals/{name}"));
        let wanted = if (12..=14).contains(&number) { 4 } else { 0 };
        assert_eq!(pairs_of(&monitor), wanted, "{name}");
        seen[number] += 1;
    }
    assert!((1..=9).chain(12..=15).all(|number| seen[number] > 0), "{seen:?}");
}

/// Document 01's examples 8 and 9; 1 and 7 are among the examples above.
#[test]
fn bench_examples() {
    let with_keep = |keep| {
        regions(keep, &["waituntil (x == 3) { }", "waituntil (true) { if (x == 2) { x := 3; } }"])
    };
    // Region 1 assigns x: guard 0. What is kept does not matter.
    wants(&with_keep("true"), 1);
    wants(&with_keep("x < 2"), 1);
    let leaving =
        file("var x = 0 in 0..1;", "true", "method m { waituntil (true) { x := x + 1; } }");
    assert_eq!((answer(&leaving).0, pairs_of(&leaving)), (9, 0));
}

/// Each place where the one assignment of a region can stand; the other region assigns nothing.
#[test]
fn wherever_an_assignment_stands() {
    for body in [
        "x := 1;",
        "x := x;",
        "if (x == 0) { x := 1; }",
        "if (x == 0) { } else { x := 1; }",
        "if (true) { x := 1; } else { }",
        "if (true) { } else { x := 1; }",
        "if (false) { x := 1; }",
        "if (false) { x := 999; } else { }",
        "if (x == 0) { if (x == 1) { x := 0; } }",
        "if (x == 0) { if (x == 1) { } else { x := 0; } }",
        "if (x == 0) { } else { if (x == 1) { x := 0; } }",
        "if (x == 0) { } else { if (x == 1) { } else { x := 0; } }",
        "if (x == 0) { } if (x == 1) { } x := 2;",
        "x := 2; if (x == 0) { } else { }",
        "if (x == 0) { } else { } if (true) { x := 0; }",
    ] {
        // Guards 0 and 1 name x; region 0 touches both.
        let both = [&format!("waituntil (x == 1) {{ {body} }}"), "waituntil (x != 1) { }"];
        wants(&regions("true", &both), 2);
        // Guard 0 names nothing; region 0 touches guard 1.
        let one = [&format!("waituntil (true) {{ {body} }}"), "waituntil (x != 1) { }"];
        wants(&regions("true", &one), 1);
        // Another variable is named in the place of x.
        let none = file(
            "var x = 0 in 0..3; var y = 0 in 0..1;",
            "true",
            &format!("method m {{ waituntil (y == 0) {{ {body} }} waituntil (y != 0) {{ }} }}"),
        );
        wants(&none, 0);
    }
}

/// Each place where a body can read a variable that it does not assign.
#[test]
fn wherever_a_name_is_read() {
    for body in [
        "",
        "y := x;",
        "y := 1 - x;",
        "y := y + x - x;",
        "if (x == 0) { }",
        "if (x == 0) { y := 0; } else { y := 1; }",
        "if (y == 0 || !(x < 1)) { } else { }",
        "if (true) { if (1 - x == 0) { } } else { y := x; }",
    ] {
        // Both guards name x alone, which region 0 only reads.
        let reads = file(
            "var x = 0 in 0..1; var y = 0 in 0..1;",
            "true",
            &format!("method m {{ waituntil (x == 0) {{ {body} }} waituntil (x == 1) {{ }} }}"),
        );
        wants(&reads, 0);
    }
}

/// Each place where a guard can name a variable, and guards that do not.
#[test]
fn wherever_a_guard_names() {
    let with = |guard: &str| {
        file(
            "var x = 0 in 0..3; var y = 0 in 0..1;",
            "true",
            &format!("method m {{ waituntil (true) {{ x := 1; }} waituntil ({guard}) {{ }} }}"),
        )
    };
    for guard in [
        "x == 0",
        "0 == x",
        "1 + x > 2",
        "2 - 1 - x > 0",
        "0 < y + x",
        "x + y < 1",
        "!x == 0",
        "!!(x == 0)",
        "((x == 0))",
        "y == 0 && x == 0",
        "y == 0 || x == 0",
        "x == 0 && y == 0",
        "y == 0 || y == 1 && (y == 0 || !(x == 0))",
        "true || x == 0",
        "false && x == 0",
        "x == x",
        "x - x == 0",
    ] {
        // Region 0 touches guard 1; guard 0 names nothing and region 1 assigns nothing.
        wants(&with(guard), 1);
    }
    for guard in ["false", "1 < 2", "!true", "(0 == 0)", "y == 0", "y == y", "1 - y < 1 || true"] {
        wants(&with(guard), 0);
    }
}

/// A buffer that is too short gives 10 and no count; one that is just long enough gives both.
#[test]
fn beside_refusal_10() {
    for room in 0..18 {
        assert_eq!(places(place(BOX.as_bytes(), room)), (10, 0, 0));
    }
    for room in [18, 19, 2160, usize::MAX] {
        assert_eq!(place(BOX.as_bytes(), room).unwrap().pairs, 4);
    }
    let [mut short, mut empty] = [0; 2];
    for one in counted() {
        let Ok(placed) = place(&one.case.monitor, usize::MAX) else { continue };
        let length = placed.table.len();
        assert_eq!(place(&one.case.monitor, length), Ok(placed));
        if length > 0 {
            assert_eq!(places(place(&one.case.monitor, length - 1)), (10, 0, 0));
            short += 1;
        } else {
            empty += 1;
        }
    }
    assert!(short > 10 && empty > 10);
}

/// The line about pairs: the count and the table's bytes, or noughts.
#[test]
fn line_about_pairs() {
    let line = |file: &str| String::from_utf8(replay_pairs(file.as_bytes())).unwrap();
    assert_eq!(line(BOX), "0000040012\n");
    assert_eq!(line(&BOX.replace("full := 0", "full := 2")), "0000000000\n");
    assert_eq!(line(""), "0000000000\n");
    // Touched, and the table is empty.
    assert_eq!(line(&BOX.replace("full := 0", "full := 1")), "0000040009\n");
    assert_eq!(line(&BOX.replace("1;", "0;")), "0000040000\n");
    let all = counted().into_iter().find(|one| one.pairs == 256).unwrap();
    assert_eq!(replay_pairs(&all.case.monitor), b"0001000090\n");
}

// Counted again from the tokens alone, without the tree.

/// A region as its tokens have it.
struct Scanned {
    /// The guard's tokens, numbers without zeros before them.
    guard: Vec<String>,
    /// The tokens before `:=` in the body.
    assigned: Vec<String>,
}

impl Scanned {
    fn touches(&self, guard: &[String]) -> bool {
        self.assigned.iter().any(|name| guard.contains(name))
    }
}

fn scanned(file: &[u8]) -> Vec<Scanned> {
    let tokens = tokens(file).unwrap();
    let spelled = |token: &Token| match token.kind {
        Kind::Number => token.value().to_string(),
        _ => String::from_utf8(token.text.clone()).unwrap(),
    };
    let regions = (0..tokens.len()).filter(|at| tokens[*at].is("waituntil"));
    let scan = |at: usize| {
        let closing = closing_of(&tokens, at + 1);
        let end = closing_of(&tokens, closing + 1);
        let body = tokens[closing + 1..end].windows(2);
        Scanned {
            guard: tokens[at + 2..closing].iter().map(spelled).collect(),
            assigned: body.filter(|two| two[1].is(":=")).map(|two| spelled(&two[0])).collect(),
        }
    };
    regions.map(scan).collect()
}

fn closing_of(tokens: &[Token], opening: usize) -> usize {
    let mut open = 0;
    for (at, token) in tokens.iter().enumerate().skip(opening) {
        open += i32::from(token.is("(") || token.is("{"));
        open -= i32::from(token.is(")") || token.is("}"));
        if open == 0 {
            return at;
        }
    }
    unreachable!("a file of the grammar")
}

/// The touched pairs of an accepted file, regions by guards.
fn touched_by_tokens(file: &[u8]) -> Vec<Vec<bool>> {
    let regions = scanned(file);
    let mut guards: Vec<&[String]> = Vec::new();
    for region in &regions {
        if !guards.contains(&region.guard.as_slice()) {
            guards.push(&region.guard);
        }
    }
    let row = |region: &Scanned| guards.iter().map(|guard| region.touches(guard)).collect();
    regions.iter().map(row).collect()
}

/// What was seen among the files.
#[derive(Default, Debug)]
struct Seen {
    files: usize,
    refused: usize,
    /// Files with touched pairs and others.
    mixed: usize,
    touched: usize,
    untouched: usize,
    entries: usize,
}

/// Placing reports the pairs that are touched by the tokens, and no other pair has an entry.
fn compare(file: &[u8], seen: &mut Seen) {
    let Ok(monitor) = check(file) else {
        seen.refused += 1;
        assert_eq!((pairs_of(file), &replay_pairs(file)[..]), (0, &b"0000000000\n"[..]));
        return;
    };
    let touched = touched_by_tokens(file);
    assert_eq!((touched.len(), touched[0].len()), (monitor.regions.len(), monitor.guards.len()));
    for (region, row) in touched.iter().enumerate() {
        for (guard, is_touched) in row.iter().enumerate() {
            assert_eq!(pairs::is_touched(&monitor, region, guard), *is_touched);
        }
    }
    let count = touched.iter().flatten().filter(|is_touched| **is_touched).count();
    let placed = place(file, usize::MAX).unwrap();
    assert_eq!((placed.pairs, pairs::count(&monitor)), (count, count));
    let all = monitor.regions.len() * monitor.guards.len();
    seen.files += 1;
    seen.mixed += usize::from(count > 0 && count < all);
    seen.touched += count;
    seen.untouched += all - count;
    // The table goes through the states of every pair.
    for line in std::str::from_utf8(&placed.table).unwrap().lines() {
        let number = |digits| usize::from_str_radix(digits, 16).unwrap();
        let (region, guard) = (number(&line[..2]), number(&line[2..4]));
        assert!(touched[region][guard], "{line} {}", String::from_utf8_lossy(file));
        seen.entries += 1;
    }
}

#[test]
fn pairs_of_many_files() {
    let mut seen = Seen::default();
    for number in 0..1_000 {
        compare(&make_case(51, number, Size::SMALL).monitor, &mut seen);
    }
    for number in 0..200 {
        compare(&make_case(52, number, Size::FULL).monitor, &mut seen);
    }
    let mut bases = Bases::of(53);
    for number in 0..1_000 {
        compare(&bases.input(number).monitor, &mut seen);
    }
    let by_hand = counted().into_iter().map(|one| one.case);
    for case in by_hand.chain(made().into_iter().map(|made| made.case)) {
        compare(&case.monitor, &mut seen);
    }
    assert!(seen.files > 1_000 && seen.refused > 500, "{seen:?}");
    assert!(2 * seen.mixed > seen.files && seen.entries > 3_000, "{seen:?}");
    assert!(seen.touched > 8_000 && seen.untouched > 8_000, "{seen:?}");
}

/// From every kept state where a region's guard holds, its body leaves a guard that it does not
/// touch as it was.
#[test]
fn what_is_not_touched_does_not_change() {
    let [mut untouched, mut states] = [0; 2];
    let few = Size { states: 100, ..Size::FULL };
    for case in 0..600 {
        let size = if case % 2 == 0 { Size::SMALL } else { few };
        let Accepted { monitor, file } = drawn(54, case, size);
        let touched = touched_by_tokens(&file);
        let kept = monitor.kept_states();
        for (region, row) in touched.iter().enumerate() {
            for guard in (0..row.len()).filter(|guard| !row[*guard]) {
                untouched += 1;
                for (_, before) in &kept {
                    if monitor.guard_holds(monitor.regions[region].guard, before) {
                        let after = monitor.after_body(region, before).unwrap();
                        let [was, is] = [before, &after].map(|v| monitor.guard_holds(guard, v));
                        assert_eq!(was, is);
                        states += 1;
                    }
                }
            }
        }
    }
    assert!(untouched > 5_000 && states > 50_000, "{untouched} {states}");
}

struct Accepted {
    monitor: Monitor,
    file: Vec<u8>,
}

fn drawn(seed: u64, case: usize, size: Size) -> Accepted {
    let drawn = any_accepted(&mut Draws::of(seed, case), size);
    Accepted { monitor: drawn.machines.monitor, file: drawn.file }
}

/// The same bodies put where they are never reached: no entry is left, and every pair is still
/// touched. With the assignments taken out none is.
#[test]
fn only_the_text_counts() {
    let mut seen = 0;
    for case in 0..400 {
        let mut draws = Draws::of(55, case);
        let drawn = any_accepted(&mut draws, Size::SMALL);
        let pairs = pairs_of(&drawn.file);
        let mut with = |before: &str, behind: &str| {
            let mut sketch: Sketch = drawn.sketch.clone();
            for region in sketch.methods.iter_mut().flat_map(|method| &mut method.regions) {
                region.body = [words(before), region.body.clone(), words(behind)].concat();
            }
            let tokens = sketch.words(&mut draws);
            laid_out(&mut draws, &tokens, Layout::Single)
        };
        for (before, behind) in [
            ("if ( false ) {", "}"),
            ("if ( true ) { } else {", "}"),
            ("if ( 1 < 2 ) { if ( true ) { } else {", "} }"),
        ] {
            let file = with(before, behind);
            match check(&file) {
                Ok(_) => assert_eq!(pairs_of(&file), pairs),
                // Too deep now.
                Err(answer) => assert_eq!(answer.number, 3),
            }
            assert!(check(&file).is_err() || table(std::str::from_utf8(&file).unwrap()).is_empty());
        }
        let mut sketch = drawn.sketch.clone();
        for region in sketch.methods.iter_mut().flat_map(|method| &mut method.regions) {
            region.body.clear();
        }
        let tokens = sketch.words(&mut draws);
        assert_eq!(pairs_of(laid_out(&mut draws, &tokens, Layout::Single)), 0);
        seen += pairs;
    }
    assert!(seen > 1_000, "{seen}");
}

// What the generator draws.

/// What a file may have; each in some files that are accepted and in some that are refused.
const FEATURES: [&str; 14] = [
    "many variables and regions",
    "a guard that names no variable",
    "a body that assigns nothing",
    "a body that only reads what its guard names",
    "a variable that is assigned under else alone",
    "a variable that is assigned in nested ifs alone",
    "an assignment that is never reached",
    "a region that does not assign what its guard names",
    "a guard with several names of which a body assigns one",
    "one guard at several regions",
    "touched pairs and others",
    "no touched pair",
    "no other pair",
    "one region that touches several guards, and one that touches one",
];

/// Where an assignment stands.
#[derive(Clone, Copy, Default)]
struct At {
    ifs: usize,
    under_else: bool,
    unreached: bool,
}

/// The names on the left, with where they stand, and those that are read.
#[derive(Default)]
struct Body {
    assigned: Vec<(Name, At)>,
    read: Vec<Name>,
}

impl Body {
    fn add(&mut self, block: &Block, at: At) {
        for statement in block {
            match statement {
                Statement::Assignment { name, expression } => {
                    self.assigned.push((name.clone(), at));
                    self.read.extend(names_of(expression));
                }
                Statement::If { condition, then, otherwise } => {
                    let names = named(condition);
                    // A condition without names has one value at most.
                    let constant = if names.is_empty() { holds(condition, &[], &[]) } else { None };
                    self.read.extend(names);
                    let ifs = at.ifs + 1;
                    let unreached = at.unreached || constant == Some(false);
                    self.add(then, At { ifs, unreached, ..at });
                    let unreached = at.unreached || constant == Some(true);
                    self.add(otherwise, At { ifs, under_else: true, unreached });
                }
            }
        }
    }

    fn assigns(&self, name: &Name) -> bool {
        self.assigned.iter().any(|(assigned, _)| assigned == name)
    }

    /// Whether some variable is assigned, and wherever it is, at such a place.
    fn only_at(&self, wanted: fn(&At) -> bool) -> bool {
        self.assigned.iter().any(|(name, _)| {
            self.assigned.iter().filter(|(other, _)| other == name).all(|(_, at)| wanted(at))
        })
    }
}

fn names_of(expression: &Expression) -> Vec<Name> {
    let mut operands = Vec::new();
    for (_, term) in expression {
        match term {
            Term::Operand(operand) => operands.push(operand),
            Term::Remainder(of) => operands.extend([&of.left, &of.divisor]),
        }
    }
    let names = operands.into_iter().filter_map(|operand| match operand {
        Operand::Variable(name) => Some(name.clone()),
        Operand::Integer(_) => None,
    });
    names.collect()
}

fn named(condition: &Condition) -> Vec<Name> {
    let mut names = match condition {
        Condition::Any(parts) | Condition::All(parts) => parts.iter().flat_map(named).collect(),
        Condition::Not(part) => named(part),
        Condition::Constant(_) => Vec::new(),
        Condition::Compared { left, right, .. } => [names_of(left), names_of(right)].concat(),
    };
    names.sort();
    names.dedup();
    names
}

/// Which of the features a file has, or none if its tokens make no file.
fn features(file: &[u8], size: Size) -> Option<[bool; FEATURES.len()]> {
    let tokens = tokens(file).ok()?;
    let tree = grammar::read(&tokens, file.len()).ok()?;
    let regions: Vec<&grammar::Region> = tree.methods.iter().flatten().collect();
    let guards: Vec<Vec<Name>> = regions.iter().map(|region| named(&region.guard)).collect();
    let body = |region: &&grammar::Region| {
        let mut body = Body::default();
        body.add(&region.body, At::default());
        body
    };
    let bodies: Vec<Body> = regions.iter().map(body).collect();
    let both: Vec<(&Vec<Name>, &Body)> = guards.iter().zip(&bodies).collect();
    let touched = touched_by_tokens(file);
    let all = || touched.iter().flatten();
    let row_count = |row: &Vec<bool>| row.iter().filter(|is_touched| **is_touched).count();
    let (variables, many) = if size.is_small { (3, 3) } else { (4, 6) };
    Some([
        tree.variables.len() >= variables && regions.len() >= many,
        guards.iter().any(|guard| guard.is_empty()),
        bodies.iter().any(|body| body.assigned.is_empty()),
        both.iter().any(|(guard, body)| {
            !guard.iter().any(|name| body.assigns(name))
                && guard.iter().any(|name| body.read.contains(name))
        }),
        bodies.iter().any(|body| body.only_at(|at| at.under_else)),
        bodies.iter().any(|body| body.only_at(|at| at.ifs > 1)),
        bodies.iter().any(|body| body.assigned.iter().any(|(_, at)| at.unreached)),
        both.iter()
            .any(|(guard, body)| !guard.is_empty() && !guard.iter().any(|name| body.assigns(name))),
        guards.iter().any(|guard| {
            let assigned = |body: &Body| guard.iter().filter(|name| body.assigns(name)).count();
            guard.len() > 1 && bodies.iter().any(|body| assigned(body) == 1)
        }),
        touched[0].len() < regions.len(),
        all().any(|is_touched| *is_touched) && all().any(|is_touched| !is_touched),
        all().all(|is_touched| !is_touched),
        all().all(|is_touched| *is_touched),
        touched.iter().any(|row| row_count(row) > 1)
            && touched.iter().any(|row| row_count(row) == 1),
    ])
}

/// Each feature is met by two of a hundred accepted files, and by some that are refused behind
/// the grammar.
fn features_occur(seed: u64, count: usize, size: Size) {
    let mut files = [0; 2];
    let mut met = [[0; FEATURES.len()]; 2];
    for number in 0..count {
        let case = make_case(seed, number, size);
        let Some(features) = features(&case.monitor, size) else { continue };
        let refused = usize::from(check(&case.monitor).is_err());
        files[refused] += 1;
        for (met, has) in met[refused].iter_mut().zip(features) {
            *met += usize::from(has);
        }
    }
    for (feature, name) in FEATURES.iter().enumerate() {
        let [accepted, refused] = met.map(|met| met[feature]);
        assert!(50 * accepted >= files[0], "{name}: {accepted} of {}", files[0]);
        assert!(refused > 0, "{name}: of {} refused", files[1]);
    }
}

#[test]
fn full_cases_have_pairs_of_every_kind() {
    features_occur(56, 300, Size::FULL);
}

#[test]
fn small_cases_have_pairs_of_every_kind() {
    features_occur(57, 1_000, Size::SMALL);
}
