//! What draws inputs at random: types, slices, patches, their totals, the damage that is done to
//! their files, and whole calls. All follow from a seed.

pub mod calls;
pub mod cuts;
pub mod damage;
pub mod feeds;
pub mod patch_damage;
pub mod patches;
pub mod random;
pub mod sides;
pub mod slices;
mod targets;
pub mod totals;
pub mod types;
mod waiting;
