//! Questions with candidates' files, and the trials of a mark program on them.

pub mod accepted;
pub mod cases;
pub mod drawings;
pub mod kinds;
pub mod limits;
pub mod lines;
pub mod pair;
pub mod questions;
pub mod refused;
pub mod trials;
