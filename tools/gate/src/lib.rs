//! What the gate runs beside the kit. A command says whether all is as it should be, or
//! why it could not be done.

pub mod believe;
pub mod edits;
pub mod files;
pub mod programs;
pub mod replay_data;
mod second;
pub mod slip;
pub mod system;
