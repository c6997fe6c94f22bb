//! Reads a sheet from standard input and prints its key for the older player: reference_older_key [TABLE]

use reference::device::Device;
use reference::program::print_key;

fn main() -> std::io::Result<()> {
    print_key(Device::Older)
}
