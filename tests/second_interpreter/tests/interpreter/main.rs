//! Tests of the second interpreter through its public functions.

mod arrivals;
mod cases;
mod choices;
mod common;
mod cuts;
mod exhaustive;
mod generator;
mod kinds;
mod longest;
mod openings;
mod program;
mod properties;
mod refusals;
mod totals;
mod waiting;
