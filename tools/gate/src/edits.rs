//! Says which must-fail edits no longer fit their file: the old text must stand there exactly once.

use std::io;
use std::path::{Path, PathBuf};

use crate::files::{children, read_text};

pub fn edits(root: &Path) -> io::Result<bool> {
    let paths = all_edits(root)?;
    let mut bad = 0;
    for path in &paths {
        let of_crate = |file: &str| read_text(&crate_of(path).join(file));
        for Misfit { old, count } in misfits(&read_text(path)?, of_crate)? {
            bad += 1;
            let name = path.strip_prefix(root).unwrap_or(path).display();
            println!("{name}: the old text stands {count} times: {}", old.trim());
        }
    }
    println!("{} edits, {bad} do not fit", paths.len());
    Ok(bad == 0)
}

/// The files crates/NAME/must-fail/*.edit.
fn all_edits(root: &Path) -> io::Result<Vec<PathBuf>> {
    let mut paths = Vec::new();
    for directory in children(&root.join("crates"))? {
        paths.extend(children(&directory.join("must-fail"))?);
    }
    paths.retain(|path| path.extension().is_some_and(|end| end == "edit"));
    Ok(paths)
}

/// The crate's directory, from which an edit names its file.
fn crate_of(edit: &Path) -> &Path {
    edit.ancestors().nth(2).expect("an edit is in crates/NAME/must-fail")
}

/// An old text that does not stand in its file exactly once.
#[derive(Debug, PartialEq)]
pub struct Misfit {
    pub old: String,
    pub count: usize,
}

/// The misfits of an edit, whose changes are made one after another. `read` gives the text of a
/// file that the edit names.
pub fn misfits(edit: &str, read: impl Fn(&str) -> io::Result<String>) -> io::Result<Vec<Misfit>> {
    let (mut text, mut old) = (String::new(), "");
    let mut found = Vec::new();
    for line in edit.lines() {
        match line.split_once(": ") {
            Some(("file", file)) => text = read(file)?,
            Some(("old", rest)) => {
                old = rest;
                let count = text.matches(old).count();
                if count != 1 {
                    found.push(Misfit { old: old.to_string(), count });
                }
            }
            Some(("new", new)) => text = text.replacen(old, new, 1),
            _ => {}
        }
    }
    Ok(found)
}
