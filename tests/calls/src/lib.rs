//! The static library's calls as safe functions.
//! Their contracts ask for nothing, so there is nothing to test before calling.

pub mod library;
