//! Schools' tables for the key program, and sheets whose lifts are done by them.

pub mod cases;
pub mod faults;
pub mod file;
pub mod growth;
pub mod kinds;
pub mod least;
