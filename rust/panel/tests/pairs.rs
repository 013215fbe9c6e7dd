//! Touched pairs: the count in words and for tools, and which they are, read off the text, against the library's count and its entries.
mod common;
use common::{command, panel_reading, root, status, stdout, Json, BOX};
use damsonyet::Table;
use panel::pairs::Touched;
use panel::sheet::Sheet;

fn on_a_stack(test: impl FnOnce() + Send + 'static) {
    std::thread::Builder::new().stack_size(panel::STACK).spawn(test).expect("a thread").join().expect("the test")
}

/// A file of three variables with these regions, each in a method of its own.
fn file(regions: &[&str]) -> Vec<u8> {
    let method = |(k, region): (usize, &&str)| format!("method m{k} {{ waituntil {region} }}\n");
    let methods: String = regions.iter().enumerate().map(method).collect();
    format!("monitor m {{ var x = 0 in 0..3; var x1 = 0 in 0..3; var y = 0 in 0..3;\nkeep true;\n{methods}}}\n").into_bytes()
}

/// Every monitor file below the examples.
fn examples() -> Vec<(String, Vec<u8>)> {
    let mut files = Vec::new();
    let mut open = vec![root().join("examples")];
    while let Some(folder) = open.pop() {
        for entry in std::fs::read_dir(folder).expect("a folder") {
            let path = entry.expect("an entry").path();
            let name = path.file_name().expect("a name").to_string_lossy().into_owned();
            if path.is_dir() {
                open.push(path);
            } else if name.starts_with("monitor") {
                files.push((path.display().to_string(), std::fs::read(&path).expect("the file")));
            }
        }
    }
    assert!(files.len() > 40, "{}", files.len());
    files
}

fn placed(file: &[u8]) -> Option<(Sheet<'_>, Table)> {
    let (outline, _) = damsonyet::outline(file).ok()?;
    Some((Sheet::new(file, outline), damsonyet::place(file).ok()?))
}

/// The touched pairs of an accepted file, by region and guard.
fn touched(file: &[u8]) -> Vec<(usize, usize)> {
    let (sheet, table) = placed(file).expect("an accepted file");
    let touched = Touched::of(&sheet, &table).expect("the library's count");
    let all = (0..sheet.outline.regions.len()).flat_map(|r| (0..sheet.outline.guards).map(move |g| (r, g)));
    all.filter(|&(r, g)| touched.by(r, g) != 0).collect()
}

/// On every example and every case of crates/replay the names in the text give the library's count, and no other pair has an entry.
#[test]
fn names_give_the_count() {
    on_a_stack(|| {
        let [mut accepted, mut pairs, mut others] = [0; 3];
        let cases = common::cases().into_iter().enumerate().map(|(k, (file, _))| (format!("case {k}"), file));
        for (name, file) in examples().into_iter().chain(cases) {
            let Some((sheet, table)) = placed(&file) else { continue };
            let Some(touched) = Touched::of(&sheet, &table) else { panic!("{name}: {} pairs", table.pairs) };
            for entry in &table.entries {
                assert!(touched.by(entry.region.into(), entry.guard.into()) != 0, "{name}: {entry:?}");
            }
            accepted += 1;
            pairs += usize::from(table.pairs);
            others += sheet.outline.regions.len() * sheet.outline.guards - usize::from(table.pairs);
        }
        assert!(accepted > 300 && pairs > 2_000 && others > 2_000, "{accepted} {pairs} {others}");
    });
}

/// The grid of examples/wide-bay, as its README counts it.
#[test]
fn pairs_of_the_wide_bay() {
    on_a_stack(|| {
        let file = std::fs::read(root().join("examples/wide-bay/monitor.txt")).expect("the file");
        let by_hand: [&[usize]; 9] = [&[0, 2, 3, 5, 8], &[0, 2, 5], &[2, 3, 4, 8], &[3, 8], &[2, 4], &[1], &[6, 7], &[6, 7], &[8]];
        let by_hand: Vec<(usize, usize)> = by_hand.iter().enumerate().flat_map(|(r, guards)| guards.iter().map(move |&g| (r, g))).collect();
        assert_eq!(touched(&file), by_hand);
        let (sheet, mut table) = placed(&file).expect("an accepted file");
        // By what: `off` touches the guard of `show` by the breaker alone, which is the first variable; the guard names the lamp too.
        assert_eq!(Touched::of(&sheet, &table).expect("the library's count").by(0, 8), 0b000001);
        // Where the names give another count, nothing is said of single pairs: the page has the count and no grid.
        assert!(panel::page::pairs::pairs(&sheet, &table).contains("<table"));
        for count in [0, 21, 23, 81, u16::MAX] {
            table.pairs = count;
            assert!(Touched::of(&sheet, &table).is_none(), "{count}");
            let html = panel::page::pairs::pairs(&sheet, &table);
            let says = match count {
                0 => "none of 81 touched".into(),
                81 => "all 81 touched".into(),
                n => format!("{n} of 81 touched"),
            };
            assert!(html.contains(&says) && !html.contains("<table") && !html.contains("<td"), "{html}");
        }
    });
}

/// However the text is laid out.
#[test]
fn names_are_read_as_the_library_reads_them() {
    on_a_stack(|| {
        assert_eq!(touched(&file(&["(x==3){}", "(true){y:=x;x\t\r\n :=\n3;}"])), [(1, 0)]);
        assert_eq!(touched(&file(&["(x1==3){}", "(true){if(x==1){x:=0;}else{x:=1;}}"])), []);
        assert_eq!(touched(&file(&["(x==3&&x1==3){}", "(true){x1:=0;}", "(y-x>0){x:=x1;}"])), [(1, 0), (2, 0), (2, 2)]);
        assert_eq!(touched(&file(&["(!(true||x==01))\n{\n}", "(x>=0){if(x1==1){}else{if(false){x:=9;}}}"])), [(1, 0), (1, 1)]);
        assert_eq!(touched(&file(&["(x == 0) { x := 1; }", "(  x==000 ) { y := 1; }", "(0 == x) { x := 2; }"])).len(), 4);
    });
}

fn said(command: &str, file: &[u8]) -> String {
    stdout(&panel_reading(&[command, "-"], file))
}

#[test]
fn the_count_in_words() {
    let none = file(&["(x == 0) { }", "(y == 0) { x1 := y; }"]);
    let one = file(&["(x == 0) { x := 1; }"]);
    let some = file(&["(x == 0) { x := 1; }", "(y == 0) { y := 1; }", "(true) { x1 := 0; }"]);
    for (file, line) in [
        (BOX, "  pairs: all 4 touched\n"),
        (&none, "  pairs: none of 4 touched (so none has an entry, by the text alone)\n"),
        (&one, "  pairs: 1 of 1 touched\n"),
        (&some, "  pairs: 2 of 9 touched (the others have no entry, by the text alone)\n"),
    ] {
        for command in ["check", "place", "show"] {
            let said = said(command, file);
            assert_eq!(said.matches(line).count(), 1, "{command}: {said}");
            assert_eq!(said.matches("pairs:").count(), 1, "{command}: {said}");
        }
    }
    // With tries the count comes before them.
    let tried = String::from_utf8(one).expect("ASCII").replace("keep true;", "keep true; try x < 2;");
    assert!(said("check", tried.as_bytes()).ends_with("  pairs: 1 of 1 touched\n  tries: 1 of 1 chosen (00)\n"));
    // Of a refused file nothing is said.
    let refused = file(&["(true) { x := 4; }"]);
    for command in ["check", "place", "show"] {
        assert!(!said(command, &refused).contains("pairs"), "{command}");
    }
}

#[test]
fn the_count_for_tools() {
    on_a_stack(|| {
        let mut refused = 0;
        for (name, file) in examples() {
            let object = |command: &str| Json::read(&stdout(&panel_reading(&[command, "-", "--json"], &file)));
            let (check, place, show) = (object("check"), object("place"), object("show"));
            assert!(check.get("pairs").is_none() && show.get("pairs").is_none(), "{name}");
            match damsonyet::place(&file) {
                Ok(table) => {
                    assert_eq!(place.keys(), ["answer", "table", "pairs", "chosen", "tries"], "{name}");
                    assert_eq!(place.at("pairs").number(), i64::from(table.pairs), "{name}");
                    assert_eq!(show.at("place"), &place, "{name}");
                }
                Err(_) => {
                    refused += 1;
                    assert!(place.get("pairs").is_none() && show.get("place").is_none(), "{name}");
                }
            }
        }
        assert!(refused > 15, "{refused}");
    });
}

/// The helps name it where it is told.
#[test]
fn helps_name_it() {
    for name in ["check", "place", "show"] {
        let output = command().args([name, "--help"]).output().expect("the program runs");
        assert_eq!(status(&output), 0);
        let help = stdout(&output).split_whitespace().collect::<Vec<_>>().join(" ");
        assert!(help.contains("touched"), "{help}");
        assert_eq!(help.contains("\"pairs\""), name == "place", "{help}");
    }
}
