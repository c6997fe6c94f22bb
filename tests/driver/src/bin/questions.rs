//! Tries a questions program with and without an index, and a key program on every question.
//!
//! questions QUESTIONS_PROGRAM KEY_PROGRAM TARGET [WRAPPER]
//!   QUESTIONS_PROGRAM  the questions program; `--self` stands for the reference's own
//!   KEY_PROGRAM        the key program, which must take each question as a sheet, or `--self`
//!   TARGET             a folder to which what a failing run was given and printed is saved
//!   WRAPPER            the script that setters use in place of the questions program, tried if it is named

use driver::program;
use driver::questions::{cases, trial, wrapper};
use reference::report::Report;
use std::path::{Path, PathBuf};
use std::process::ExitCode;

fn run(arguments: &[String]) -> Result<bool, String> {
    let (questions_program, key_program, target, script) = match arguments {
        [questions_program, key_program, target] => (questions_program, key_program, target, None),
        [questions_program, key_program, target, script] => (questions_program, key_program, target, Some(script)),
        _ => return Err("usage: questions QUESTIONS_PROGRAM KEY_PROGRAM TARGET [WRAPPER]".to_string()),
    };
    let (mut trials, mut least) = (cases::trials(), cases::least_counts());
    if script.is_some() {
        trials.extend(wrapper::trials());
        least.extend(wrapper::least_counts());
    }
    let subject = trial::Subject {
        questions_program: &program::named(questions_program, "reference_questions")?,
        key_program: &program::named(key_program, "reference_key")?,
        wrapper: script.map(Path::new),
        folder: Path::new(target),
    };
    let mut report = Report::new(PathBuf::from(target));
    cases::reference_tests(&mut report);
    let mut report = subject.try_all(&trials, report).map_err(|error| format!("{target}: {error}"))?;
    report.categories(&least);
    Ok(report.finish("questions"))
}

fn main() -> ExitCode {
    let arguments: Vec<String> = std::env::args().skip(1).collect();
    match run(&arguments) {
        Ok(true) => ExitCode::SUCCESS,
        Ok(false) => ExitCode::FAILURE,
        Err(fault) => {
            eprintln!("questions: {fault}");
            ExitCode::FAILURE
        }
    }
}
