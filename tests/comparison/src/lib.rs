//! The library beside the second interpreter: random calls, and a comparison of every answer.
//!
//! [`formats`] has the names of kinds and numbers, and files as bytes and as trees. [`generators`]
//! draws calls from a seed, many of them accepted and the others damaged in every way that a file
//! can be. [`calls`] hands one to both and compares number, lengths, counts and every byte of the
//! lent buffers and beside them. [`runs`] makes lists of feeds, each on the patch that the last one
//! left, and holds demand 3 to them, and cuts slices that are accepted whole. [`other_slices`] holds what Longest wrote to other slices of
//! its type, and [`joined_arrivals`] what Join wrote to the counts of its slices. [`tallies`] counts
//! what was answered, so that one sees which numbers and which kinds of nodes were met. [`limits`]
//! holds the answers that a program stored. [`other_rules`] feeds by wrong rules, [`other_counts`]
//! counts by wrong ones and [`other_totals`] adds by wrong ones, which have to be found.
//! [`convention`] is what this package's program and those of others have in common for their users.

pub mod calls;
pub mod convention;
pub mod formats;
pub mod generators;
pub mod joined_arrivals;
pub mod limits;
pub mod other_counts;
pub mod other_rules;
pub mod other_slices;
pub mod other_totals;
pub mod runs;
pub mod tallies;

pub use calls::call::{Call, Operation};
pub use calls::comparison::compare;
pub use generators::calls::Calls;
pub use generators::random::Random;
pub use joined_arrivals::hold_joined;
pub use other_slices::OtherSlices;
pub use runs::split::Splits;
pub use runs::Runs;
pub use tallies::Tally;
