//! The archive's calls and structs as `include/damsonyet.h` declares them, with the same sizes and offsets asserted.
use std::mem::{offset_of, size_of};

pub const FAULT: u16 = 65534;
pub const NEVER: u16 = 65535;
pub const OUTPUT_BYTES: usize = 4096;
pub const POINT_BYTES: usize = 49;
pub const FRAME_BYTES: usize = 7;

#[repr(C)]
#[derive(Clone, Copy)]
pub struct Answer {
    pub number: u8,
    pub first: usize,
    pub second: usize,
}

#[repr(C)]
pub struct Placing {
    pub answer: Answer,
    pub length: usize,
    pub chosen: u16,
    pub pairs: u16,
}

#[repr(C)]
pub struct Running {
    pub answer: Answer,
    pub vars: usize,
    pub values: [u16; 6],
    pub places: [u8; 16],
    pub notified: u16,
    pub how_many: u32,
    pub of_file: bool,
    pub turns: [u8; 16],
}

#[repr(C)]
pub struct Both {
    pub plain: Running,
    pub table: Running,
}

#[repr(C)]
pub struct Pointing {
    pub plain: Answer,
    pub table: Answer,
    pub count: usize,
}

#[repr(C)]
pub struct Made {
    pub answer: Answer,
    pub count: usize,
}

#[repr(C)]
#[derive(Clone, Copy)]
pub struct Span {
    pub from: usize,
    pub to: usize,
}

#[repr(C)]
pub struct Variable {
    pub name: Span,
    pub start: u16,
    pub low: u16,
    pub high: u16,
}

#[repr(C)]
pub struct Method {
    pub name: Span,
    pub first: usize,
}

#[repr(C)]
pub struct Region {
    pub guard: Span,
    pub body: Span,
    pub number: usize,
}

#[repr(C)]
pub struct Outline {
    pub answer: Answer,
    pub vars: usize,
    pub tries: usize,
    pub methods: usize,
    pub regions: usize,
    pub guards: usize,
    pub states: usize,
    pub start: usize,
    pub title: Span,
    pub keep: Span,
    pub variable: [Variable; 6],
    pub tried: [Span; 16],
    pub method: [Method; 8],
    pub region: [Region; 16],
}

#[repr(C)]
pub struct Fates {
    pub answer: Answer,
    pub known: bool,
    pub tries: usize,
    pub chosen: u16,
    pub passes: [u8; 16],
    pub regions: [u8; 16],
    pub states: [u16; 16],
}

#[repr(C)]
pub struct State {
    pub answer: Answer,
    pub known: bool,
    pub kept: bool,
    pub vars: usize,
    pub values: [u16; 6],
    pub holds: u16,
    pub after: [u16; 16],
}

#[repr(C)]
pub struct Values {
    pub held: [u16; 6],
}

#[repr(C)]
pub struct Numbered {
    pub answer: Answer,
    pub known: bool,
    pub number: usize,
}

extern "C" {
    pub fn damsonyet_check(file: *const u8, file_len: usize) -> Answer;
    pub fn damsonyet_place(file: *const u8, file_len: usize, table: *mut u8, table_len: usize) -> Placing;
    pub fn damsonyet_run(file: *const u8, file_len: usize, trace: *const u8, trace_len: usize, start: usize, table: bool) -> Running;
    pub fn damsonyet_run_both(file: *const u8, file_len: usize, trace: *const u8, trace_len: usize, start: usize) -> Both;
    pub fn damsonyet_run_both_from_start(file: *const u8, file_len: usize, trace: *const u8, trace_len: usize) -> Both;
    pub fn damsonyet_start_state(file: *const u8, file_len: usize) -> usize;
    pub fn damsonyet_placer_lines(file: *const u8, file_len: usize, out: *mut [u8; OUTPUT_BYTES]) -> usize;
    pub fn damsonyet_runner_lines(
        file: *const u8,
        file_len: usize,
        trace: *const u8,
        trace_len: usize,
        out: *mut [u8; OUTPUT_BYTES],
    ) -> usize;
    pub fn damsonyet_points(
        file: *const u8,
        file_len: usize,
        trace: *const u8,
        trace_len: usize,
        start: usize,
        out: *mut u8,
        out_len: usize,
    ) -> Pointing;
    pub fn damsonyet_load(file: *const u8, file_len: usize, seed: u32, threads: usize, wanted: usize, out: *mut u8, out_len: usize)
        -> Made;
    pub fn damsonyet_outline_of(file: *const u8, file_len: usize) -> Outline;
    pub fn damsonyet_fates_of(file: *const u8, file_len: usize) -> Fates;
    pub fn damsonyet_state_at(file: *const u8, file_len: usize, number: usize) -> State;
    pub fn damsonyet_number_of(file: *const u8, file_len: usize, values: Values) -> Numbered;
}

const _: () = {
    assert!(size_of::<Answer>() == 24 && offset_of!(Answer, first) == 8 && offset_of!(Answer, second) == 16);
    assert!(size_of::<Placing>() == 40 && offset_of!(Placing, length) == 24 && offset_of!(Placing, chosen) == 32);
    assert!(offset_of!(Placing, pairs) == 34);
    assert!(size_of::<Running>() == 88 && offset_of!(Running, vars) == 24 && offset_of!(Running, values) == 32);
    assert!(offset_of!(Running, places) == 44 && offset_of!(Running, notified) == 60);
    assert!(offset_of!(Running, how_many) == 64 && offset_of!(Running, of_file) == 68);
    assert!(offset_of!(Running, turns) == 69);
    assert!(size_of::<Both>() == 176 && offset_of!(Both, table) == 88);
    assert!(size_of::<Pointing>() == 56 && offset_of!(Pointing, table) == 24 && offset_of!(Pointing, count) == 48);
    assert!(size_of::<Made>() == 32 && offset_of!(Made, count) == 24);
    assert!(size_of::<Span>() == 16 && offset_of!(Span, to) == 8);
    assert!(size_of::<Variable>() == 24 && offset_of!(Variable, start) == 16 && offset_of!(Variable, high) == 20);
    assert!(size_of::<Method>() == 24 && offset_of!(Method, first) == 16);
    assert!(size_of::<Region>() == 40 && offset_of!(Region, body) == 16 && offset_of!(Region, number) == 32);
    assert!(size_of::<Outline>() == 1344 && offset_of!(Outline, vars) == 24 && offset_of!(Outline, tries) == 32);
    assert!(offset_of!(Outline, methods) == 40 && offset_of!(Outline, start) == 72);
    assert!(offset_of!(Outline, title) == 80 && offset_of!(Outline, keep) == 96);
    assert!(offset_of!(Outline, variable) == 112 && offset_of!(Outline, tried) == 256);
    assert!(offset_of!(Outline, method) == 512 && offset_of!(Outline, region) == 704);
    assert!(size_of::<Fates>() == 112 && offset_of!(Fates, known) == 24 && offset_of!(Fates, tries) == 32);
    assert!(offset_of!(Fates, chosen) == 40 && offset_of!(Fates, passes) == 42);
    assert!(offset_of!(Fates, regions) == 58 && offset_of!(Fates, states) == 74);
    assert!(size_of::<Values>() == 12);
    assert!(size_of::<State>() == 88 && offset_of!(State, known) == 24 && offset_of!(State, kept) == 25);
    assert!(offset_of!(State, vars) == 32 && offset_of!(State, values) == 40 && offset_of!(State, holds) == 52);
    assert!(offset_of!(State, after) == 54);
    assert!(size_of::<Numbered>() == 40 && offset_of!(Numbered, known) == 24 && offset_of!(Numbered, number) == 32);
};
