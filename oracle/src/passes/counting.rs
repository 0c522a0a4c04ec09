//! The effects of the copy that counts: the same text over its modules.

use super::counted as original;

#[path = "effects.rs"]
pub mod effects;
