//! The inputs of the programs `driver` (keys), `marks` and `questions`, and what they have in common.

pub mod cases;
pub mod damage;
pub mod generate;
pub mod growth;
pub mod kinds;
pub mod limits;
pub mod marks;
pub mod older;
pub mod older_cases;
pub mod program;
pub mod questions;
pub mod self_tests;
pub mod sheets;
pub mod tables;
pub mod vectors;
pub mod workers;
