//! The passes beside the original's, whose files are compiled where they lie, and once more as a copy that counts.

pub mod both;
mod cases;
pub mod chain;
pub mod compare;
// Written by oracle/build.sh: a module for each file of the copy, whose final clamps and samples count.
#[allow(dead_code)]
#[path = "../../../target/oracle/counted.rs"]
#[rustfmt::skip]
pub mod counted;
pub mod counting;
pub mod curves;
pub mod effects;
pub mod frames;
// Written by oracle/build.sh: a module for each of the original's files.
#[allow(dead_code)]
#[path = "../../../target/oracle/original.rs"]
#[rustfmt::skip]
pub mod original;
mod room;
mod runs;
pub mod settings;
pub mod table;
