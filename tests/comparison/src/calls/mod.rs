//! One call, made to the library and to the second interpreter, and the two answers compared.

pub(crate) mod apart;
pub(crate) mod asking;
pub mod call;
pub mod comparison;
pub mod counts;
pub mod library;
