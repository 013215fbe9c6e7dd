//! What the commands print for every example, against the files in tests/golden. With PANEL_GOLDEN=write these are written anew: look at
//! what has changed before it is kept.
mod common;
use common::{command, root, stderr, stdout};
use std::fs;
use std::path::{Path, PathBuf};

/// The text files of a folder whose names begin so, as paths from the repository, in order.
fn files(folder: &Path, begin: &str) -> Vec<String> {
    let mut names: Vec<String> = fs::read_dir(root().join(folder))
        .expect("a folder")
        .map(|entry| entry.expect("an entry").file_name().into_string().expect("ASCII"))
        .filter(|name| name.starts_with(begin) && name.ends_with(".txt"))
        .collect();
    names.sort();
    names.into_iter().map(|name| folder.join(name).to_str().expect("ASCII").to_string()).collect()
}

/// What is typed, what is printed and the exit status.
fn session(arguments: &[&str]) -> String {
    let output = command().env("COLUMNS", "80").args(arguments).output().expect("the program runs");
    assert_eq!(stderr(&output), "", "{arguments:?}");
    format!("$ panel {}\n{}[{}]\n\n", arguments.join(" "), stdout(&output), common::status(&output))
}

fn told(folder: &Path) -> String {
    let mut text = String::new();
    for file in files(folder, "monitor") {
        text += &session(&["check", &file]);
        text += &session(&["check", &file, "--json"]);
        text += &session(&["place", &file]);
        text += &session(&["place", &file, "--json"]);
    }
    let monitor = folder.join("monitor.txt");
    for trace in files(folder, "trace") {
        text += &session(&["run", monitor.to_str().expect("ASCII"), &trace]);
        text += &session(&["run", monitor.to_str().expect("ASCII"), &trace, "--json"]);
    }
    text += &session(&[folder.to_str().expect("ASCII")]);
    text += &session(&["show", folder.to_str().expect("ASCII"), "--json", "--points"]);
    text
}

/// Every folder of examples with a monitor.txt.
fn examples() -> Vec<PathBuf> {
    let below = |folder: &str| {
        let entries = fs::read_dir(root().join(folder)).expect("a folder");
        entries.map(|entry| Path::new(folder).join(entry.expect("an entry").file_name())).collect::<Vec<_>>()
    };
    let mut folders = [below("examples"), below("examples/refusals")].concat();
    folders.retain(|folder| root().join(folder).join("monitor.txt").is_file());
    folders.sort();
    folders
}

#[test]
fn examples_are_told_as_before() {
    let golden = Path::new(env!("CARGO_MANIFEST_DIR")).join("tests/golden");
    let write = std::env::var_os("PANEL_GOLDEN").is_some_and(|value| value == "write");
    let folders = examples();
    assert!(folders.len() >= 30, "{}", folders.len());
    let mut differ = Vec::new();
    for folder in folders {
        let name = folder.strip_prefix("examples").expect("below examples").to_str().expect("ASCII").replace('/', "-") + ".txt";
        let said = told(&folder);
        common::assert_tame(said.as_bytes());
        let at = golden.join(&name);
        if write {
            fs::create_dir_all(&golden).expect("the folder");
            fs::write(&at, &said).expect("written");
        } else if fs::read_to_string(&at).unwrap_or_default() != said {
            differ.push(name);
        }
    }
    assert!(differ.is_empty(), "another text than in tests/golden: {differ:?}");
}
