//! What the two key programs do.

use crate::device::Device;
use crate::key::{key_bytes, school_key_bytes};
use std::io::{Read, Result, Write};

fn sheet() -> Vec<u8> {
    let mut bytes = Vec::new();
    std::io::stdin().read_to_end(&mut bytes).expect("a sheet");
    bytes
}

/// Reads a sheet from standard input and prints its key for a device. The first argument is the file of a school's own
/// table; one that cannot be opened counts as empty.
pub fn print_key(device: Device) -> Result<()> {
    let key = match std::env::args_os().nth(1) {
        Some(name) => school_key_bytes(device, &std::fs::read(name).unwrap_or_default(), sheet),
        None => key_bytes(device, &sheet()),
    };
    std::io::stdout().write_all(&key)
}
