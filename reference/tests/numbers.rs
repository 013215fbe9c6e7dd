//! States and their numbers (document 01, "The monitor file"; document 02, E3): files worked out
//! by hand, every state of many drawn files counted again, and the same in sixteen bits.

mod common;
use common::{answer, byte_of, file, table};
use reference::cases::draws::Draws;
use reference::cases::monitors::any_accepted;
use reference::cases::numbered::{list, numbered, Numbered};
use reference::cases::refused::refused;
use reference::cases::{make_case, Size};
use reference::grammar::Variable;
use reference::lines::{placer, replay_tries, runner};
use reference::outline::{number_of, outline, state_at, After};
use reference::ranges::{count_of_states, state_number, state_values};
use reference::{check, run, Machine};

fn case(what: &str) -> Numbered {
    numbered().into_iter().find(|one| one.what == what).expect(what)
}

/// Lines as one line, with blanks between.
fn on_a_line(lines: &[u8]) -> String {
    std::str::from_utf8(lines).unwrap().trim_end().replace('\n', " ")
}

// Worked out by hand.

#[test]
fn what_placer_prints() {
    let numbered = numbered();
    assert_eq!(numbered.len(), 82);
    for one in &numbered {
        assert_eq!(on_a_line(&placer(&one.case.monitor)), one.placer, "{}", one.what);
        // The list has each file on a line.
        assert!(!one.case.monitor.contains(&b'\n'));
    }
    let mut names: Vec<&str> = numbered.iter().map(|one| one.what).collect();
    names.sort();
    names.dedup();
    assert_eq!(names.len(), numbered.len());
}

/// With an empty body in the place of the last region's nothing is refused.
#[test]
fn each_fault_is_the_only_one() {
    let mut alone = 0;
    for one in numbered().iter().filter(|one| one.placer.starts_with("090001")) {
        let file = String::from_utf8(one.case.monitor.clone()).unwrap();
        let last = file.rfind('{').unwrap();
        let without = file[..=last].to_string() + " } } }";
        assert_eq!(answer(&without), (0, 0, 0), "{}", one.what);
        alone += 1;
    }
    assert!(alone > 30, "{alone}");
}

/// What `runner` prints: the values plus 128, then the places of the first threads; the others
/// are idle.
#[test]
fn what_runner_prints() {
    let line = |begins: &str, variables: usize| {
        format!("{begins:F<length$} ", length = 2 + 2 * variables + 32)
    };
    for (what, variables, begins) in [
        // From 4,095 to a at 0, where thread 0 goes on: 80 BF.
        ("an entry from 4,095 alone", 2, "0080BF"),
        ("a region that runs from 4,095 alone", 2, "0080BE"),
        ("an entry into 4,095 alone", 2, "00BFBF"),
        ("a signal into 4,095 alone", 2, "008080"),
        ("conditional by 4,095 alone", 2, "0081BF"),
        ("unconditional without 4,095", 2, "0081BF"),
        // Thread 1 waits at region 1.
        ("a broadcast by 4,095 alone", 2, "008080FF01"),
        // a at 1 and b at -127.
        ("from 254 past 255", 2, "008101"),
        ("past 255 and back, six of 4", 6, "00808180808081"),
        ("down from 4,095 and back, six of 4", 6, "00838383838381"),
        // Digits 1, 2, 3, 4, 5 and 2.
        ("down from 3,599 and back", 6, "00818183828A7E"),
        // Digits 1, 0, 0, 0, 0 and 0.
        ("from 1,799 to 1,800 and back", 6, "00817F807E857C"),
        // Every value at its lowest.
        ("round from 4,094 to 0", 4, "007D7C7A7E"),
        ("a try broken from 4,095 alone", 2, "008080FF01"),
        ("a try broken from 0 alone", 2, "008080FF01"),
        ("a try broken from 300", 2, "00808000"),
        ("one a pass, from 300 and from 767", 2, "0080800001"),
        ("tries broken from 255 and from 4,094", 6, "00808080808082"),
        ("a try broken by going round", 2, "008083"),
        ("a chosen try leaves out 4,095", 2, "00818000"),
        ("a try that holds at 4,095 alone", 2, "0080BE"),
        ("4,095 alone is kept", 2, "00BFBFFF01"),
        ("from 4,095 to 0 and back", 2, "00FF8F"),
        ("256 by 16 by 1", 3, "00808080"),
        ("16 by 16 by 16", 3, "00808080"),
        ("63 by 65", 2, "008080"),
    ] {
        let Numbered { case, .. } = case(what);
        let printed = on_a_line(&runner(&case.monitor, &case.trace));
        assert_eq!(printed + " ", line(begins, variables).repeat(2), "{what}");
    }
    // The table's machine tells one waiter alone, and the other's recheck is 14 at 4.
    let Numbered { case, .. } = case("a signal without 4,095");
    let printed = on_a_line(&runner(&case.monitor, &case.trace));
    assert_eq!(printed, line("008080FF01", 2) + "0E00040000");
    // All that are accepted have been looked at.
    assert_eq!(numbered().iter().filter(|one| check(&one.case.monitor).is_ok()).count(), 27);
}

/// The chosen tries and the fates: pass, region and state.
#[test]
fn what_becomes_of_tries() {
    let mut seen = 0;
    for (what, lines) in [
        ("a try broken from 4,095 alone", "0000000001 0100010FFF"),
        ("a try broken from 0 alone", "0000000001 0100010000"),
        // Eight bits would tell 44, which is 2C.
        ("a try broken from 300", "0000000001 010000012C"),
        (
            "one a pass, from 300 and from 767",
            "0000040004 010000012C 02000102FF 0000000000 FF00000000",
        ),
        ("tries broken from 255 and from 4,094", "0000040003 01000100FF 0100010FFE 0000000000"),
        ("a try broken by going round", "0000000001 0100010FFF"),
        ("a chosen try leaves out 4,095", "0000010001 0000000000"),
        ("a try falls and 4,095 is told", "0900000FFF 0100010FBF"),
        ("a try that holds at 4,095 alone", "0000000002 0100000FFF 0200010FFE"),
    ] {
        assert_eq!(on_a_line(&replay_tries(&case(what).case.monitor)), lines, "{what}");
        seen += 1;
    }
    let tried = |one: &&Numbered| String::from_utf8_lossy(&one.case.monitor).contains(" try ");
    assert_eq!(numbered().iter().filter(tried).count(), seen);
}

/// Refusal 7 names the variable that takes the product above 4,096, whatever stands behind it.
#[test]
fn products_of_sizes() {
    let of = |sizes: &[i64]| {
        let variable = |(n, size): (usize, &i64)| {
            let lowest = -(size / 2);
            format!("var v{n} = 0 in {lowest}..{}; ", lowest + size - 1)
        };
        let variables: String = sizes.iter().enumerate().map(variable).collect();
        file(&variables, "true", "method m { waituntil (true) { } }")
    };
    for (sizes, over) in [
        (&[256, 256][..], 1),
        (&[256, 256, 256, 256], 1),
        (&[64, 64, 16], 2),
        (&[64, 64, 17], 2),
        (&[241, 17], 1),
        (&[17, 241], 1),
        (&[256, 17], 1),
        (&[17, 256], 1),
        (&[16, 16, 16, 16], 3),
        (&[8; 6], 4),
        (&[2, 8, 8, 8, 8, 8], 4),
        (&[16, 16, 16, 1, 1, 16], 5),
        (&[128, 128, 4], 1),
        (&[256, 16, 256], 2),
        (&[7, 9, 13, 5, 17], 4),
        (&[255, 16, 256], 2),
    ] {
        let file = of(sizes);
        assert_eq!(answer(&file), (7, byte_of(&file, &format!("var v{over}")), 0), "{sizes:?}");
    }
    for (sizes, states) in [
        (&[64, 64][..], 4096),
        (&[256, 16], 4096),
        (&[16, 256], 4096),
        (&[4; 6], 4096),
        (&[8; 4], 4096),
        (&[16; 3], 4096),
        (&[2, 2, 4, 4, 8, 8], 4096),
        (&[8, 8, 4, 4, 2, 2], 4096),
        (&[1, 1, 64, 64, 1, 1], 4096),
        (&[7, 9, 13, 5], 4095),
        (&[63, 65], 4095),
        (&[3, 3, 5, 7, 13], 4095),
        (&[2, 3, 4, 5, 6, 5], 3600),
        (&[241, 16], 3856),
        (&[256], 256),
        (&[1; 6], 1),
    ] {
        let (verdict, told) = outline(of(sizes).as_bytes());
        assert_eq!((verdict, told.unwrap().states), (Ok(()), states), "{sizes:?}");
    }
}

/// Every product of two sizes up to 128, and of some pairs with a third: the answer is that of
/// the true product.
#[test]
fn every_product_of_two_or_three_sizes() {
    let variable = |name: &str, size: usize| format!("var {name} = 0 in {}..0; ", 1 - size as i64);
    let of = |sizes: &[usize]| {
        let variables: String =
            sizes.iter().zip(["a", "b", "c"]).map(|(size, name)| variable(name, *size)).collect();
        file(&variables, "true", "method m { waituntil (true) { } }")
    };
    for one in 1..=128 {
        for other in 1..=128 {
            let file = of(&[one, other]);
            let place = if one * other > 4096 { byte_of(&file, "var b") } else { 0 };
            assert_eq!(answer(&file), (7 * u8::from(place > 0), place, 0), "{one} {other}");
        }
    }
    for (one, other) in [(64, 64), (63, 65), (32, 128), (50, 80), (17, 128)] {
        for third in 1..=128 {
            let file = of(&[one, other, third]);
            let place = if one * other * third > 4096 { byte_of(&file, "var c") } else { 0 };
            assert_eq!(answer(&file), (7 * u8::from(place > 0), place, 0), "{one} {other} {third}");
        }
    }
}

/// A fault at each single state of a file in turn: 9 tells its number, which is that of the
/// states before it in the order of their values.
#[test]
fn a_fault_at_each_state() {
    for ranges in [&[(0, 15), (-128, 127)][..], &[(-128, 127), (0, 15)], &[(5, 5), (-2, 0), (0, 6)]]
    {
        let names = ["a", "b", "c"];
        let variables: String = names
            .iter()
            .zip(ranges)
            .map(|(name, (lowest, highest))| {
                format!("var {name} = {lowest} in {lowest}..{highest}; ")
            })
            .collect();
        let all = states_in_order(ranges);
        for (number, values) in all.iter().enumerate() {
            // All of a small file, and of a large one those about a carry and some others.
            if all.len() > 200 && number % 97 > 0 && number % 256 > 1 && number % 256 < 254 {
                continue;
            }
            let parts: Vec<String> = names
                .iter()
                .zip(values)
                .map(|(name, value)| format!("{name} == {value}"))
                .collect();
            let methods =
                format!("method m {{ waituntil ({}) {{ a := 999; }} }}", parts.join(" && "));
            let file = file(&variables, "true", &methods);
            assert_eq!(answer(&file), (9, 0, number), "{file}");
        }
    }
}

/// All states, the last value going first.
fn states_in_order(ranges: &[(i64, i64)]) -> Vec<Vec<i64>> {
    ranges.iter().fold(vec![Vec::new()], |before, (lowest, highest)| {
        let longer = |values: &Vec<i64>| {
            let values = values.clone();
            (*lowest..=*highest).map(move |value| [&values[..], &[value]].concat())
        };
        before.iter().flat_map(longer).collect()
    })
}

/// Runs of either machine from a state's number, at both ends and one past.
#[test]
fn runs_from_numbers() {
    let Numbered { case, .. } = case("from 254 past 255");
    let up = b"000001\n";
    for machine in [Machine::Plain, Machine::Table] {
        for (start, values) in [
            (0, [0, -127]),
            (254, [0, 127]),
            (255, [1, -128]),
            (256, [1, -127]),
            (299, [1, -84]),
            (3839, [15, -128]),
            (4094, [15, 127]),
        ] {
            assert_eq!(run(&case.monitor, up, start, machine).unwrap().values, values);
        }
        let at_4095 = run(&case.monitor, b"", 4095, machine).unwrap();
        assert_eq!(at_4095.values, [15, 127]);
        for past in [4096, 4097, 65_535, 65_536, 65_536 + 254] {
            assert_eq!(run(&case.monitor, b"", past, machine).unwrap_err().number, 11);
        }
    }
}

/// What the body of each region does from a state: it ends at the next number or the one before.
#[test]
fn steps_of_one() {
    for (what, states) in [
        ("from 254 past 255", 4096),
        ("past 255 and back, six of 4", 4096),
        ("down from 3,599 and back", 3600),
    ] {
        let file = case(what).case.monitor;
        let picked = (0..states).filter(|number| number % 61 < 2 || number % 256 > 253);
        for number in picked.chain([states - 2, states - 1]) {
            let after = state_at(&file, number).1.unwrap().after;
            let next = if number + 1 < states { After::Ends(number + 1) } else { After::Never };
            let before = if number > 0 { After::Ends(number - 1) } else { After::Never };
            assert_eq!(after, [next, before], "{what} {number}");
        }
        assert_eq!(state_at(&file, states).1, None);
    }
}

/// The table with and without the highest state, which the kept condition leaves out.
#[test]
fn without_the_highest_state() {
    for (with, without) in [
        ("conditional by 4,095 alone", "unconditional without 4,095"),
        ("a broadcast by 4,095 alone", "a signal without 4,095"),
    ] {
        assert_ne!(case(with).placer, case(without).placer);
    }
    for what in ["an entry from 4,095 alone", "a region that runs from 4,095 alone"] {
        let file = String::from_utf8(case(what).case.monitor).unwrap();
        let kept = file.replace("keep true", "keep a < 63 || b < 63").replace("= 63 in", "= 0 in");
        assert_eq!(table(&kept), "", "{what}");
    }
}

// The list for theorems by computation.

#[test]
fn states_of_the_list() {
    let list = list();
    let blocks: Vec<&str> = list.strip_suffix("\n\n").unwrap().split("\n\n").collect();
    assert_eq!(blocks.len(), 20);
    let listed: Vec<Numbered> =
        numbered().into_iter().filter(|one| !one.asked.is_empty()).collect();
    assert_eq!(blocks.len(), listed.len());
    for (number, (block, one)) in blocks.iter().zip(&listed).enumerate() {
        let lines: Vec<&str> = block.lines().collect();
        assert_eq!(lines[0], format!("case {number}: {}", one.what));
        assert_eq!(lines[1].as_bytes(), [b"file: ", &one.case.monitor[..]].concat());
        let (verdict, told) = outline(&one.case.monitor);
        assert!(verdict.is_ok() || verdict.is_err_and(|answer| answer.number > 7));
        let told = told.unwrap();
        // 0 and the highest, and numbers that rise.
        let asked: Vec<usize> =
            lines[2]["states: ".len()..].split(' ').map(|state| state.parse().unwrap()).collect();
        assert_eq!((asked[0], asked[asked.len() - 1]), (0, told.states - 1), "{}", one.what);
        assert!(asked.windows(2).all(|two| two[0] < two[1]));
        // Each item, from the ranges alone.
        let ranges: Vec<(i64, i64)> =
            told.variables.iter().map(|variable| (variable.lowest, variable.highest)).collect();
        let all = states_in_order(&ranges);
        let items: Vec<String> = asked
            .iter()
            .map(|state| {
                let values = all[*state].iter().map(|value| format!("{:02X}", value + 128));
                format!("{state:04X}{}", values.collect::<String>())
            })
            .collect();
        assert_eq!(lines[3], format!("told: {}", items.join(" ")), "{}", one.what);
        assert_eq!(lines.len(), 4);
    }
}

// Every state of many files.

/// Files that the checks 1 to 7 pass, with their variables: so many accepted ones, drawn, some
/// others that are mostly refused, and those made by hand.
fn drawn(seed: u64, count: usize) -> Vec<(Vec<u8>, Vec<Variable>)> {
    let accepted =
        (0..count).map(move |number| any_accepted(&mut Draws::of(seed, number), Size::FULL).file);
    let full = (0..count / 10).map(|number| make_case(seed, number, Size::FULL).monitor);
    let small = (0..count / 2).map(|number| make_case(seed, number, Size::SMALL).monitor);
    let by_hand = numbered().into_iter().map(|one| one.case.monitor);
    let files = accepted.chain(full).chain(small).chain(by_hand);
    let with_variables = |file: Vec<u8>| {
        let (_, told) = outline(&file);
        told?;
        let tokens = reference::tokens::tokens(&file).unwrap();
        let tree = reference::grammar::read(&tokens, file.len()).unwrap();
        Some((file, tree.variables))
    };
    files.filter_map(with_variables).collect()
}

/// How many values a range holds, counted one by one.
fn size_of(variable: &Variable) -> usize {
    (variable.lowest..=variable.highest).count()
}

/// The products of the sizes behind each variable.
fn weights(variables: &[Variable]) -> Vec<usize> {
    (1..=variables.len()).map(|at| variables[at..].iter().map(size_of).product()).collect()
}

/// Numbers and values undo each other, the numbers are those of document 01, and they rise with
/// the values compared from the first on. In sixteen bits nothing wraps.
#[test]
fn every_state_of_many_files() {
    let files = drawn(71, 900);
    assert!(files.len() > 1_000);
    let [mut states, mut above_255] = [0; 2];
    for (_, variables) in &files {
        let count: usize = variables.iter().map(size_of).product();
        assert_eq!(count_of_states(variables), count);
        assert!((1..=4096).contains(&count));
        let weights = weights(variables);
        assert!(weights.iter().all(|weight| *weight <= 4096));
        let mut before: Option<Vec<i64>> = None;
        for number in 0..count {
            let values = state_values(variables, number);
            assert!(variables.iter().zip(&values).all(|(v, value)| v.in_range(*value)));
            assert_eq!(state_number(variables, &values), number);
            assert!(number < 4096);
            by_weights(variables, &weights, &values, number);
            in_sixteen_bits(variables, &values, number);
            assert!(before.is_none_or(|before| before < values));
            before = Some(values);
            states += 1;
            above_255 += usize::from(number > 255);
        }
        // The highest state has every value at its highest, and state 0 at its lowest.
        assert!(before.unwrap().iter().zip(variables).all(|(value, v)| *value == v.highest));
        let first = state_values(variables, 0);
        assert!(first.iter().zip(variables).all(|(value, v)| *value == v.lowest));
    }
    assert!(states > 200_000 && above_255 > 100_000, "{states} {above_255}");
}

/// The sum of each value less its lowest times its weight, from the first on and from the last,
/// every part of it below 65,536; and the same in sixteen bits that wrap.
fn by_weights(variables: &[Variable], weights: &[usize], values: &[i64], number: usize) {
    let parts: Vec<(usize, u16)> = variables
        .iter()
        .zip(values)
        .zip(weights)
        .map(|((variable, value), weight)| {
            let digit = (value - variable.lowest) as usize;
            let product = digit * weight;
            assert!(digit < 256 && product < 65_536);
            let short = u16::try_from(digit).unwrap().wrapping_mul(*weight as u16);
            assert_eq!(usize::from(short), product);
            (product, short)
        })
        .collect();
    let sum = |parts: &mut dyn Iterator<Item = &(usize, u16)>| {
        let [mut whole, mut short] = [0, 0];
        for (product, wrapped) in parts {
            whole += product;
            short = u16::wrapping_add(short as u16, *wrapped) as usize;
            assert!(whole < 65_536 && whole == short);
        }
        whole
    };
    assert_eq!(sum(&mut parts.iter()), number);
    assert_eq!(sum(&mut parts.iter().rev()), number);
}

/// From the first variable on: what has been counted times the size, plus the digit. Then from
/// the number back to the digits, from the last variable on. Both in sixteen bits that wrap.
fn in_sixteen_bits(variables: &[Variable], values: &[i64], number: usize) {
    let [mut whole, mut short] = [0usize, 0];
    for (variable, value) in variables.iter().zip(values) {
        let [size, digit] = [size_of(variable), (value - variable.lowest) as usize];
        whole = whole * size + digit;
        short = (short as u16).wrapping_mul(size as u16).wrapping_add(digit as u16) as usize;
        assert!(whole < 65_536 && whole == short);
    }
    assert_eq!(whole, number);
    let mut rest = number as u16;
    for (variable, value) in variables.iter().zip(values).rev() {
        let size = size_of(variable) as u16;
        assert_eq!(variable.lowest + i64::from(rest % size), *value);
        rest /= size;
    }
    assert_eq!(rest, 0);
}

/// Any two states: the one with the lower number has the lower values, compared from the first
/// on. Numbers by `number_of`, and values by `state_at`.
#[test]
fn any_two_states() {
    let mut draws = Draws::of(74, 0);
    let mut pairs = 0;
    for (file, variables) in drawn(72, 100) {
        let count = count_of_states(&variables);
        for _ in 0..4 {
            let [one, other] = [0, 1].map(|_| draws.below(count));
            let values = [one, other].map(|number| state_values(&variables, number));
            assert_eq!(values[0].cmp(&values[1]), one.cmp(&other));
            pairs += usize::from(one != other);
        }
        let number = draws.below(count);
        let values = state_values(&variables, number);
        let six: Vec<i64> = values.iter().copied().chain([0; 6]).take(6).collect();
        assert_eq!(number_of(&file, six.try_into().unwrap()).1, Some(number));
        if let Some(state) = state_at(&file, number).1 {
            assert_eq!(state.values, values);
        }
    }
    assert!(pairs > 400, "{pairs}");
}

/// From every kept state of drawn files each body ends where `state_number` says, below the count
/// of states.
#[test]
fn what_bodies_end_with() {
    let [mut moves, mut above_255] = [0; 2];
    for number in 0..200 {
        let monitor = any_accepted(&mut Draws::of(75, number), Size::FULL).machines.monitor;
        for (before, values) in monitor.kept_states() {
            assert_eq!(state_number(&monitor.variables, &values), before);
            for (region, of) in monitor.regions.iter().enumerate() {
                if monitor.guard_holds(of.guard, &values) {
                    let after = monitor.after_body(region, &values).unwrap();
                    let number = state_number(&monitor.variables, &after);
                    assert!(number < monitor.count_of_states());
                    assert_eq!(monitor.state_values(number), after);
                    moves += 1;
                    above_255 += usize::from(before > 255 && number > 255);
                }
            }
        }
    }
    assert!(moves > 50_000 && above_255 > 10_000, "{moves} {above_255}");
}

// What the generator draws.

/// Of a hundred full-size files at least fifteen have more than 256 states, and three have 4,096.
#[test]
fn many_states_are_drawn() {
    let count = |number| {
        let drawn = any_accepted(&mut Draws::of(76, number), Size::FULL);
        drawn.machines.monitor.count_of_states()
    };
    let counts: Vec<usize> = (0..400).map(count).collect();
    let share = |wanted: fn(usize) -> bool| {
        100 * counts.iter().filter(|count| wanted(**count)).count() / counts.len()
    };
    assert!(share(|count| count > 256) >= 15);
    assert!(share(|count| count == 4096) >= 3);
    assert!(share(|count| count == 4095) >= 1);
    assert!(counts.iter().all(|count| *count <= 4096));
}

/// Some start at the highest of many states, and 9 is told at numbers above 255.
#[test]
fn high_numbers_are_met() {
    let [mut starts, mut faults] = [0; 2];
    for number in 0..100 {
        let mut draws = Draws::of(77, number);
        let monitor = any_accepted(&mut draws, Size::FULL).machines.monitor;
        let states = monitor.count_of_states();
        starts += usize::from(states > 256 && monitor.start_number() == states - 1);
        let answer = check(&refused(&mut draws, Size::FULL, 9)).unwrap_err();
        faults += usize::from(answer.second > 255);
    }
    assert!(starts >= 2 && faults >= 3, "{starts} {faults}");
}
