//! Running a program once.

use std::io::{ErrorKind, Read, Write};
use std::path::{Path, PathBuf};
use std::process::{Child, Command, ExitStatus, Stdio};
use std::sync::Mutex;
use std::time::{Duration, Instant};

/// No run may take longer.
const DEADLINE: Duration = Duration::from_secs(20);

/// A worker's running child and when it began, for the one who watches the deadline.
#[derive(Default)]
pub struct Watched(Mutex<Option<(Child, Instant)>>);

impl Watched {
    /// Ends the child if it is past the deadline.
    pub fn enforce_deadline(&self) {
        if let Some((child, began)) = self.0.lock().unwrap().as_mut() {
            if began.elapsed() > DEADLINE {
                let _ = child.kill();
            }
        }
    }

    /// What the program prints, given these bytes as its standard input, and the status with which it ends.
    pub fn run_to_end(&self, command: &mut Command, bytes: &[u8]) -> Result<(Vec<u8>, ExitStatus), String> {
        let spawned = command.stdin(Stdio::piped()).stdout(Stdio::piped()).spawn();
        let mut child = spawned.map_err(|error| format!("the program does not start: {error}"))?;
        let (mut input, mut output) = (child.stdin.take().unwrap(), child.stdout.take().unwrap());
        *self.0.lock().unwrap() = Some((child, Instant::now()));
        let written = input.write_all(bytes);
        drop(input);
        let mut printed = Vec::new();
        let read = output.read_to_end(&mut printed);
        let (mut child, _) = self.0.lock().unwrap().take().expect("the child");
        let status = child.wait().map_err(|error| error.to_string())?;
        // A program need not read more bytes than tell it that there are too many.
        match written.err().map(|error| error.kind()) {
            None | Some(ErrorKind::BrokenPipe) => {}
            Some(error) => return Err(format!("the bytes could not be written: {error}")),
        }
        read.map_err(|error| error.to_string())?;
        Ok((printed, status))
    }

    /// What the program prints; it must end with status 0.
    pub fn run(&self, command: &mut Command, bytes: &[u8]) -> Result<Vec<u8>, String> {
        let (printed, status) = self.run_to_end(command, bytes)?;
        if status.success() {
            Ok(printed)
        } else {
            Err(format!("the program ended with {status}"))
        }
    }
}

/// The program of this name; `--self` stands for the reference's own, which is beside the one that runs.
pub fn named(name: &str, own: &str) -> Result<PathBuf, String> {
    if name != "--self" {
        return Ok(Path::new(name).to_path_buf());
    }
    let running = std::env::current_exe().map_err(|error| error.to_string())?;
    Ok(running.with_file_name(own))
}
