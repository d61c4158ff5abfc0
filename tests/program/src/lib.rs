//! The built program beside the second interpreter's: streams on standard input, and every byte
//! that comes out of it compared.
//!
//! [`streams`] makes the streams of a seed, each of a [`Kind`] that is there to find some error of
//! reading, feeding or printing. [`running`] hands one to the program and holds what it writes, and
//! how it ends, to what the second interpreter writes for the same bytes. [`tally`] counts what
//! was met. [`measure`] takes times and memory.

mod formats;
pub mod measure;
pub mod running;
pub mod streams;
pub mod tally;

pub use running::{hold, Delivery, Program};
pub use streams::{Case, Kind, Streams};
pub use tally::Tally;
