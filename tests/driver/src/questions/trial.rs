//! One run of a program and what is due of it, and many such runs.

use crate::workers::{share_out, Worker, WORKERS};
use reference::check::ensure;
use reference::report::Report;
use std::ffi::OsString;
use std::fs::File;
use std::path::{Path, PathBuf};
use std::process::{Command, ExitStatus};
use std::sync::Mutex;

#[derive(Clone, Copy)]
pub enum Program {
    Questions,
    Key,
    Wrapper,
}

/// What must be on a program's standard output or standard error.
pub enum Due {
    Bytes(Vec<u8>),
    Something,
    Anything,
}

pub struct Trial {
    pub kind: &'static str,
    pub program: Program,
    pub arguments: Vec<OsString>,
    pub input: Vec<u8>,
    pub status: i32,
    pub output: Due,
    pub errors: Due,
    /// The key that the key program then prints for the output, where it is given that.
    pub key: Option<Vec<u8>>,
}

impl Trial {
    /// A run with no input that ends with status 0 and prints these bytes.
    pub fn new(kind: &'static str, program: Program, arguments: &[&str], output: Vec<u8>) -> Trial {
        Trial {
            kind,
            program,
            arguments: arguments.iter().map(OsString::from).collect(),
            input: Vec::new(),
            status: 0,
            output: Due::Bytes(output),
            errors: Due::Anything,
            key: None,
        }
    }

    fn name(&self) -> String {
        let arguments: String = format!("{:?}", self.arguments).chars().take(80).collect();
        format!("{}, arguments {arguments}", self.kind)
    }
}

impl Due {
    fn check(&self, name: &str, bytes: &[u8]) -> Result<(), String> {
        match self {
            Due::Bytes(due) => ensure(bytes == due, &format!("{name}: {} where {} is due", start(bytes), start(due))),
            Due::Something => ensure(!bytes.is_empty(), &format!("{name}: nothing")),
            Due::Anything => Ok(()),
        }
    }
}

/// The first bytes, for a fault.
fn start(bytes: &[u8]) -> String {
    let text: String = String::from_utf8_lossy(bytes).chars().take(60).collect();
    format!("{text:?} ({} bytes)", bytes.len())
}

/// How a run ended.
struct Ended {
    status: ExitStatus,
    output: Vec<u8>,
    errors: Vec<u8>,
}

/// The programs that are tried.
pub struct Subject<'a> {
    pub questions_program: &'a Path,
    pub key_program: &'a Path,
    pub wrapper: Option<&'a Path>,
    /// Each worker writes what a program says on standard error into a file of its own in here.
    pub folder: &'a Path,
}

impl Subject<'_> {
    fn command(&self, program: Program) -> Command {
        Command::new(match program {
            Program::Questions => self.questions_program,
            Program::Key => self.key_program,
            Program::Wrapper => self.wrapper.expect("a wrapper to try"),
        })
    }

    fn errors_file(&self, worker: usize) -> PathBuf {
        self.folder.join(format!("errors-{worker}"))
    }

    fn run(&self, trial: &Trial, worker: &Worker) -> Result<Ended, String> {
        let errors_file = self.errors_file(worker.number);
        let file = File::create(&errors_file).map_err(|error| error.to_string())?;
        let mut command = self.command(trial.program);
        let run = worker.watched.run_to_end(command.args(&trial.arguments).stderr(file), &trial.input);
        let (output, status) = run?;
        let errors = std::fs::read(&errors_file).map_err(|error| error.to_string())?;
        Ok(Ended { status, output, errors })
    }

    fn check(&self, trial: &Trial, ended: &Ended, worker: &Worker) -> Result<(), String> {
        let as_due = ended.status.code() == Some(trial.status);
        ensure(as_due, &format!("ended with {} where {} is due", ended.status, trial.status))?;
        trial.output.check("standard output", &ended.output)?;
        trial.errors.check("standard error", &ended.errors)?;
        let Some(due) = &trial.key else { return Ok(()) };
        let key = worker.watched.run(&mut self.command(Program::Key), &ended.output)?;
        ensure(key == *due, &format!("the key of the output is {} where {} is due", start(&key), start(due)))
    }

    fn try_one(&self, trial: &Trial, worker: &Worker, report: &Mutex<Report>) {
        let run = self.run(trial, worker);
        let result = run.as_ref().map_err(String::clone).and_then(|ended| self.check(trial, ended, worker));
        let (output, errors) = run.map_or_else(|_| Default::default(), |ended| (ended.output, ended.errors));
        let mut report = report.lock().unwrap();
        report.count(trial.kind.to_string());
        let files = [("input", &trial.input[..]), ("output", &output), ("errors", &errors)];
        report.saved_test(&trial.name(), result, &files);
    }

    pub fn try_all(&self, trials: &[Trial], report: Report) -> std::io::Result<Report> {
        std::fs::create_dir_all(self.folder)?;
        for worker in 0..WORKERS {
            File::create(self.errors_file(worker))?;
        }
        let report = Mutex::new(report);
        share_out(trials.len(), "runs", |number, worker| self.try_one(&trials[number], worker, &report));
        for worker in 0..WORKERS {
            std::fs::remove_file(self.errors_file(worker))?;
        }
        Ok(report.into_inner().unwrap())
    }
}
