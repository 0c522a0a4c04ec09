//! Long runs of calls on stations, through the library `bridge`: beside the original's pipeline and a model
//! of document 01, with up to three glows, with new depths, with switches that are asked for and committed, in pairs of stations that
//! have to agree, and with equal frames that have to stand still.

mod agreement;
mod asked;
pub mod calls;
pub mod cards;
pub mod cases;
pub mod compare;
#[cfg(fuzz)]
mod fuzz;
pub mod machine;
pub mod noise;
pub mod ours;
mod run;
pub mod sides;
pub mod station;
mod still;
