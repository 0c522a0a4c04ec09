//! Program `station`, run as a process: on inputs with recorded answers, and on many beside a model of
//! document 01 over the original's pipeline.

#[cfg(with_original)]
mod cases;
pub mod compare;
#[cfg(fuzz)]
mod fuzz;
#[cfg(with_original)]
pub mod inputs;
#[cfg(with_original)]
mod model;
mod process;
#[cfg(with_original)]
pub mod record;
pub mod recorded;
