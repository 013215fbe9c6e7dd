//! Edits that fit their file, and such that do not.

use gate::edits::{misfits, Misfit};

const FILE: &str = "let a = 1;\nlet b = 1;\n    run(a);\n";

fn found(edit: &str) -> Vec<Misfit> {
    misfits(edit, |_| Ok(FILE.to_string())).unwrap()
}

#[test]
fn an_old_text_must_stand_once() {
    assert_eq!(found("# a: b\nfile: x\nold: let a = 1;\nnew: let a = 2;\n"), []);
    let edit = "file: x\nold: = 1;\nnew: = 2;\nold: run(b)\nnew: run(c)\n";
    let misfit = |old: &str, count| Misfit { old: old.into(), count };
    assert_eq!(found(edit), [misfit("= 1;", 2), misfit("run(b)", 0)]);
}

#[test]
fn changes_are_made_one_after_another() {
    assert_eq!(found("file: x\nold: let a\nnew: let c\nold: let c\nnew: let d\n"), []);
    assert_eq!(found("file: x\nold: let a\nnew: let b\nold: let b\nnew: let c\n")[0].count, 2);
}
