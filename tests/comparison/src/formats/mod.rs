//! The files as bytes and as trees: what is known of them without an interpreter.

pub mod fault;
pub mod files;
pub mod kinds;
pub mod preorder;
pub mod totals;
pub(crate) mod trees;
