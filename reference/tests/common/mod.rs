//! What the tests share.
#![allow(dead_code)]

pub mod loads;
pub mod queues;
pub mod remainders;

use reference::{check, run, Answer, Machine, Record};

pub const BOX: &str = "monitor box { var full = 0 in 0..1; keep true; \
    method put { waituntil (full == 0) { full := 1; } } \
    method get { waituntil (full == 1) { full := 0; } } }";

/// A file with these variables, kept condition and methods.
pub fn file(variables: &str, keep: &str, methods: &str) -> String {
    format!("monitor m {{ {variables} keep {keep}; {methods} }}")
}

/// A file with one variable x in 0..3 from 0 and regions that each make a method.
pub fn regions(keep: &str, regions: &[&str]) -> String {
    let methods: Vec<String> = regions
        .iter()
        .enumerate()
        .map(|(n, region)| format!("method m{n} {{ {region} }}"))
        .collect();
    file("var x = 0 in 0..3;", keep, &methods.join(" "))
}

/// The trace with these frames, given with blanks between.
pub fn trace(frames: &str) -> Vec<u8> {
    frames.split_whitespace().flat_map(|frame| format!("{frame}\n").into_bytes()).collect()
}

/// The number and places of a refusal, or (0, 0, 0).
pub fn answer(file: impl AsRef<[u8]>) -> (u8, usize, usize) {
    places(check(file.as_ref()).map(|_| ()))
}

pub fn places<T>(result: Result<T, Answer>) -> (u8, usize, usize) {
    match result {
        Ok(_) => (0, 0, 0),
        Err(answer) => (answer.number, answer.first, answer.second),
    }
}

/// What both machines say to the frames, from the start values.
pub fn both(file: &str, frames: &str) -> [Result<Record, Answer>; 2] {
    let start = check(file.as_bytes()).expect("an accepted file").start_number();
    [Machine::Plain, Machine::Table]
        .map(|machine| run(file.as_bytes(), &trace(frames), start, machine))
}

/// Both machines' numbers and frames.
pub fn both_answers(file: &str, frames: &str) -> [(u8, usize); 2] {
    both(file, frames).map(|result| {
        let (number, frame, _) = places(result);
        (number, frame)
    })
}

pub fn table(file: &str) -> String {
    String::from_utf8(reference::lines::placer(file.as_bytes())).unwrap()
}

/// The byte at which a text first stands in a file.
pub fn byte_of(file: &str, text: &str) -> usize {
    file.find(text).expect("a text of the file")
}
