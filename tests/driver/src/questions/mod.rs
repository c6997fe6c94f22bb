//! What is tried of a questions program (02, request 10).

pub mod cases;
pub mod trial;
pub mod wrapper;
