//! Prints all small questions, or the one with an index: reference_questions [INDEX]

use reference::questions::questions_bytes;
use std::io::Write;

fn main() -> std::io::Result<()> {
    let argument = std::env::args_os().nth(1);
    std::io::stdout().write_all(&questions_bytes(argument.as_ref().map(|argument| argument.as_encoded_bytes())))
}
