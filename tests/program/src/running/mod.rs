//! Runs the program: hands it a stream in one way or another, and holds what it writes, and how it
//! ends, to what has to come.

pub(crate) mod delivery;
mod holding;
mod process;
mod report;

pub use delivery::Delivery;
pub use holding::hold;
pub use process::Program;
