//! Runs of the script that setters use in place of the questions program.

use super::cases::{line, sheet_and_key, QUESTIONS, REFUSED};
use super::trial::{Due, Program, Trial};
use reference::questions::questions_bytes;
use reference::random::Random;

const RANDOM_INDICES: usize = 25;
/// About the first and the last tree of each length.
const EDGES: [usize; 15] = [0, 1, 2, 3, 4, 19, 20, 21, 22, 235, 236, 237, 238, 3475, 3476];

const LIST: &str = "script: the whole list";
const INDEX: &str = "script: an index";
const REFUSED_INDEX: &str = "script: a refused index";
const HELP: &str = "script: help";
const WRONG_USAGE: &str = "script: wrong usage";
const SHEET: &str = "script: a sheet";
const REFUSED_SHEET: &str = "script: a refused sheet";

pub fn least_counts() -> Vec<(String, usize)> {
    let indices = EDGES.len() + RANDOM_INDICES;
    let least = [
        (LIST, 1),
        (INDEX, indices),
        (REFUSED_INDEX, 8),
        (HELP, 1),
        (WRONG_USAGE, 6),
        (SHEET, indices),
        (REFUSED_SHEET, 8),
    ];
    least.map(|(kind, least)| (kind.to_string(), least)).to_vec()
}

fn indices() -> Vec<usize> {
    let mut random = Random::new(31);
    EDGES.into_iter().chain((0..RANDOM_INDICES).map(|_| random.below(QUESTIONS))).collect()
}

const REFUSED_INDICES: [&str; 13] = [
    "3477",
    "3478",
    "4000",
    "34760",
    "65536",
    "65539",
    "4294967299",
    "18446744073709551616",
    "18446744073709551619",
    "01",
    "-1",
    "x",
    "",
];

/// The program's line, and words on standard error.
fn refused_index(index: &str) -> Trial {
    let trial = Trial::new(REFUSED_INDEX, Program::Wrapper, &[index], REFUSED.to_vec());
    Trial { errors: Due::Something, ..trial }
}

/// A sheet that is not printed: nothing on standard output, words on standard error.
fn refused_sheet(index: &str) -> Trial {
    let trial = Trial::new(REFUSED_SHEET, Program::Wrapper, &["--sheet", index], Vec::new());
    Trial { status: 1, errors: Due::Something, ..trial }
}

fn wrong_usage(arguments: &[&str]) -> Trial {
    let trial = Trial::new(WRONG_USAGE, Program::Wrapper, arguments, Vec::new());
    Trial { status: 2, errors: Due::Something, ..trial }
}

pub fn trials() -> Vec<Trial> {
    let run = |kind, arguments: &[&str], output| Trial::new(kind, Program::Wrapper, arguments, output);
    let mut trials = vec![run(LIST, &[], questions_bytes(None))];
    trials.push(Trial { output: Due::Something, ..run(HELP, &["--help"], Vec::new()) });
    for index in indices() {
        let text = index.to_string();
        trials.push(run(INDEX, &[&text], line(index)));
        let (sheet, key) = sheet_and_key(index);
        trials.push(Trial { key: Some(key), ..run(SHEET, &["--sheet", &text], sheet) });
    }
    for index in REFUSED_INDICES {
        trials.extend([refused_index(index), refused_sheet(index)]);
    }
    let usages: [&[&str]; 6] = [
        &["1", "2"],
        &["0", "0", "0"],
        &["--sheet"],
        &["--sheet", "1", "2"],
        &["--sheet", "1", "2", "3"],
        &["--other"],
    ];
    trials.extend(usages.map(wrong_usage));
    trials
}
