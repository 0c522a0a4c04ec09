//! The programs `card`, `filter`, `totals` and `sheet`, run as processes: `card` beside a text that is made from a reading of document
//! 01, `filter` beside the original's pipeline, `totals` beside sums of each area by itself, `sheet` beside the model of a sheet.

mod card;
mod cards;
mod cases;
pub mod compare;
#[cfg(with_original)]
mod curve;
#[cfg(with_original)]
mod files;
#[cfg(with_original)]
mod filter;
#[cfg(fuzz)]
mod fuzz;
#[cfg(with_original)]
mod ppm;
pub mod process;
#[cfg(with_original)]
pub mod seeds;
#[cfg(with_original)]
mod sheet;
mod size;
#[cfg(with_original)]
mod totals;
