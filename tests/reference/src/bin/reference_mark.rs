//! Marks a candidate's tree: reference_mark QUESTION CANDIDATE
//!
//! A file that cannot be opened, or is not named, counts as empty.

use reference::mark::mark_bytes;
use std::ffi::OsString;
use std::io::Write;

fn contents(name: Option<OsString>) -> Vec<u8> {
    name.and_then(|name| std::fs::read(name).ok()).unwrap_or_default()
}

fn main() -> std::io::Result<()> {
    let mut names = std::env::args_os().skip(1);
    let (question, candidate) = (contents(names.next()), contents(names.next()));
    std::io::stdout().write_all(&mark_bytes(&question, &candidate))
}
