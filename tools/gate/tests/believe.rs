//! The page of what to believe, as it is read and mended.

use std::fs;

use gate::believe::{believe, grouped, row, totals, Row};
use gate::files::Scratch;

#[test]
fn rows_are_read() {
    let name = "crates/a/specs/B.antt";
    let line = |lines: &str| format!("| `{name}` | {lines} | what it says |");
    assert_eq!(row(&line("1,029")), Some(Row { name, lines: "1,029" }));
    assert_eq!(row(&line("")), None);
    assert_eq!(row(&line("many")), None);
    assert_eq!(row("| `docs/B.md` | 29 | no crate |"), None);
}

#[test]
fn totals_are_found() {
    let text = "**1,545 lines** in all, 7 lines** in all, **9 lines** in all";
    let found: Vec<&str> = totals(text).into_iter().map(|at| &text[at]).collect();
    assert_eq!(found, ["1,545", "9"]);
    assert_eq!([0, 999, 1000, 1234567].map(grouped), ["0", "999", "1,000", "1,234,567"]);
}

#[test]
fn a_damaged_page_is_found_and_mended() {
    // Outside of the repository, in which `rt` refuses an .antt file that no crate has.
    let scratch = Scratch::new().unwrap();
    let root = &scratch.at;
    for directory in ["docs", "crates/syntax/specs/Decide"] {
        fs::create_dir_all(root.join(directory)).unwrap();
    }
    let put = |name: &str, text: &str| fs::write(root.join(name), text).unwrap();
    let is_good = || believe(root, &[]).unwrap();
    put("crates/syntax/specs/A.antt", "use b\n\nx\n  use c\n");
    put("crates/syntax/specs/Decide/A.antt", "x\n");
    put("docs/BELIEVE.md", "**1 lines** in all\n| `crates/syntax/specs/A.antt` | 9 |\n");
    assert!(!is_good());
    assert!(believe(root, &["--write"]).unwrap());
    let page = "**2 lines** in all\n| `crates/syntax/specs/A.antt` | 2 |\n";
    assert_eq!(fs::read_to_string(root.join("docs/BELIEVE.md")).unwrap(), page);
    assert!(is_good());

    put("docs/BELIEVE.md", &format!("{page}| `crates/syntax/specs/B.antt` | 0 |\n"));
    assert!(!is_good(), "a file that is not there");
    put("docs/BELIEVE.md", page);
    put("crates/syntax/specs/B.antt", "");
    assert!(!is_good(), "a file that is not listed");
}
