//! A plain interpreter of patches, slices and feeds, written from document 01 and
//! requests M-100 to M-105 of document 02 alone, to be compared with another
//! implementation. M-102 changes no answer, so nothing here is its own.
//!
//! Trees live on the heap. Files are read into trees ([`Type`], [`Slice`],
//! [`Node`]), the rules of the documents work on the trees, and the answers are
//! written back as files. The six operations and the program are at the crate
//! root; the tree functions are public for those who generate tests, and so are
//! the lists of all small types and of all their slices.

#![forbid(unsafe_code)]
#![warn(missing_docs)]

mod enumeration;
mod feeding;
mod files;
mod measuring;
mod nodes;
mod numbers;
mod operations;
mod program;
mod slices;
mod totals;
mod types;
mod typing;

pub use enumeration::{every_slice, every_type, longest_by_trying};
pub use feeding::{feed_node, Fed};
pub use files::{patch_file, slice_file, type_file};
pub use measuring::longest_slice;
pub use nodes::Node;
pub use numbers::Number;
pub use operations::{admit, check, feed, join, left, longest, totals_of, Admitted, FedFiles};
pub use program::run_program;
pub use slices::{empty_slice, join_slices, what_slice_leaves, Slice};
pub use totals::Totals;
pub use types::Type;
pub use typing::output_type;
