//! Program `sheet`: runs of it, and what it writes. A sheet is read and played by the model of document 02's P13 in sheets/, and the
//! events that it records are those of document 01's program `station`.

pub mod cases;
mod drawn;
mod events;
#[cfg(fuzz)]
mod fuzz;
mod lines;
mod played;
pub mod runs;
pub mod said;

/// The most bytes of a file that the program takes.
const LONGEST: usize = 2 * 1024 * 1024;
