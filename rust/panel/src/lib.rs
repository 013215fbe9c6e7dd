//! Shows monitor files, their wake-up tables and runs to people. All facts come from the library `damsonyet`; here are words and pictures.
pub mod args;
pub mod cli;
pub mod frames;
pub mod input;
pub mod json;
pub mod load;
pub mod mark;
pub mod out;
pub mod page;
pub mod pairs;
pub mod patience;
pub mod sheet;
pub mod text;
pub mod tries;
pub mod words;

/// The stack of a thread that calls the library, with room for what is around the call.
pub const STACK: usize = 8 * damsonyet::STACK;
