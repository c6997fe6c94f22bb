//! Tries a mark program on fixed and random pairs of files and checks every line.
//!
//! marks KEY_PROGRAM MARK_PROGRAM VECTORS TARGET [PAIRS [SEED]]
//!   KEY_PROGRAM   the key program, whose gathered trees must be marked right; `--self` stands for the reference's own
//!   MARK_PROGRAM  the mark program, or `--self`
//!   VECTORS       a folder of NAME.question and NAME.candidate with NAME.mark
//!   TARGET        a folder for the files that the program is given, and to which failing pairs are saved

use driver::marks::{cases, kinds, limits, trials};
use driver::{program, vectors};
use reference::mark::File::{Candidate, Question};
use reference::mark::Mark::{NotGathered, OtherLamps, Right};
use reference::mark_check::Trait;
use reference::report::Report;
use std::path::{Path, PathBuf};
use std::process::ExitCode;

const PAIRS: usize = 33_000;
const SEED: u64 = 2005;

/// How often each of these must be met among ten thousand random pairs.
fn least_traits() -> Vec<(Trait, usize)> {
    use Trait::*;
    let mut least: Vec<(Trait, usize)> = (1..=10).map(|number| (Refused(Question, number), 10)).collect();
    least.extend([1, 2, 3, 4, 5, 6, 7, 10].map(|number| (Refused(Candidate, number), 30)));
    for mark in [Right, OtherLamps, NotGathered] {
        least.extend([(Marked(mark), 900), (Lifted(mark), 80), (LastGroup(mark), 80)]);
        least.extend([(MostNodes(mark), 10), (MoreNodesThanASheet(mark), 30), (MarkMissing(mark), 20)]);
        least.extend([IntersectionInQuestion, IntersectionInDrawing, IntersectionInBoth].map(|seen| (seen(mark), 70)));
    }
    least.extend([
        (Refused(Candidate, 26), 300),
        (Unmarked(Right), 300),
        (Unmarked(OtherLamps), 100),
        (Answered19(OtherLamps), 300),
        (Answered19(NotGathered), 200),
        (NoMarkedLeaf, 80),
        (RightOtherTree, 1000),
        (BothFaults, 200),
        (ForeignLast, 30),
        (ForeignNeighbour, 100),
        (LiftLine, 100),
        (MarkLine, 100),
    ]);
    least
}

fn least_counts(pairs: usize) -> Vec<(String, usize)> {
    let rounds = pairs / kinds::shares();
    let kinds = kinds::KINDS.iter().map(|(name, share, _)| (format!("pairs: {name}"), share * rounds));
    let traits = least_traits().into_iter().map(|(seen, count)| (format!("{seen:?}"), count * pairs / 10_000));
    kinds.chain(traits).collect()
}

fn run(arguments: &[String]) -> Result<bool, String> {
    let [key_program, mark_program, vectors, target, rest @ ..] = arguments else {
        return Err("usage: marks KEY_PROGRAM MARK_PROGRAM VECTORS TARGET [PAIRS [SEED]]".to_string());
    };
    let number = |at: usize, default: u64| rest.get(at).map_or(Ok(default), |text| text.parse::<u64>());
    let random_pairs = number(0, PAIRS as u64).map_err(|error| error.to_string())? as usize;
    let seed = number(1, SEED).map_err(|error| error.to_string())?;
    let mut cases = vectors::pairs(vectors.as_ref()).map_err(|error| format!("{vectors}: {error}"))?;
    cases.extend(cases::cases());
    cases.extend(limits::limits());
    let subject = trials::Subject {
        key_program: &program::named(key_program, "reference_key")?,
        mark_program: &program::named(mark_program, "reference_mark")?,
        folder: Path::new(target),
        cases: &cases,
        random_pairs,
        seed,
    };
    let report = Report::new(PathBuf::from(target));
    let mut report = subject.try_all(report).map_err(|error| format!("{target}: {error}"))?;
    report.categories(&least_counts(random_pairs));
    Ok(report.finish("marks"))
}

fn main() -> ExitCode {
    let arguments: Vec<String> = std::env::args().skip(1).collect();
    match run(&arguments) {
        Ok(true) => ExitCode::SUCCESS,
        Ok(false) => ExitCode::FAILURE,
        Err(fault) => {
            eprintln!("marks: {fault}");
            ExitCode::FAILURE
        }
    }
}
