//! The totals of rectangles of a picture: compared with a model that was written from request P10 of document 02, and timed
//! beside a plain loop over each rectangle.

pub mod bench;
mod cases;
pub mod compare;
mod lists;
mod model;
mod pages;
