//! The runs of the programs are what their names say.

use std::collections::HashSet;

use gate::programs::inputs::{count, files, full, in_parts, table_of_full, traces};
use gate::programs::runs::runs;

/// The size at the end of a name, if it has one.
fn size(name: &str) -> Option<usize> {
    name.rsplit('-').next().unwrap().parse().ok()
}

#[test]
fn no_two_runs_have_one_name() {
    let runs = runs();
    let names: HashSet<&String> = runs.iter().map(|run| &run.name).collect();
    assert_eq!(names.len(), runs.len());
}

#[test]
fn inputs_have_the_size_that_they_are_named_for() {
    for file in files(&full()).iter().chain(&files(&count())) {
        assert_eq!(size(&file.name).unwrap_or(file.bytes.len()), file.bytes.len(), "{}", file.name);
    }
    for trace in traces().iter().filter(|trace| !trace.name.contains("-at-")) {
        assert_eq!(size(&trace.name), Some(trace.bytes.len()), "{}", trace.name);
    }
    assert_eq!(table_of_full().len(), 240 * 9);
}

#[test]
fn parts_make_up_the_whole() {
    let bytes: Vec<u8> = (0..5000).map(|k| (k % 251) as u8).collect();
    let ways = in_parts(&bytes, &[1, 4096, 8192]);
    let names: Vec<&str> = ways.iter().map(|(name, _)| name.as_str()).collect();
    assert_eq!(names, ["whole", "cut-1", "cut-4096", "by-1000", "by-4096"]);
    for (_, parts) in &ways {
        assert_eq!(parts.concat(), bytes);
    }
}
