//! The card: what opening and writing give, held to a reading of document 01, and of document 02's P2, P3 and P12, that was written
//! from the papers alone.

pub mod cases;
pub mod compare;
pub mod damage;
pub mod paper;
pub mod spelling;
