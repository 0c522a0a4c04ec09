//! Run sheets, by document 02's P13: read and written by a reading of the paper, played on stations through the library `bridge` beside
//! the model of the runs, and the reading of a frame's words timed.

#[cfg(not(fuzz))]
pub mod bench;
#[cfg(with_original)]
pub mod both;
#[cfg(with_original)]
pub mod cases;
#[cfg(all(with_original, not(fuzz)))]
pub mod compare;
#[cfg(all(with_original, fuzz))]
pub mod fuzz;
#[cfg(with_original)]
pub mod lists;
#[cfg(with_original)]
pub mod model;
pub mod paper;
#[cfg(all(with_original, not(fuzz)))]
mod unpack;
