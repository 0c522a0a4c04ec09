//! The cabinet, by document 02's P14: sources shown on stations through the library `bridge` beside the model of the runs, and the
//! enlarging by itself, compared and timed.

#[cfg(not(fuzz))]
pub mod bench;
#[cfg(with_original)]
pub mod both;
#[cfg(with_original)]
pub mod cases;
#[cfg(all(with_original, not(fuzz)))]
pub mod compare;
#[cfg(all(with_original, not(fuzz)))]
mod enlarge;
#[cfg(all(with_original, fuzz))]
pub mod fuzz;
#[cfg(with_original)]
pub mod lists;
pub mod model;
