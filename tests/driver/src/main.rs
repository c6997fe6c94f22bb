//! Tries both key programs on fixed and random sheets and checks every key.
//!
//! driver PROGRAM OLDER_PROGRAM VECTORS OURS TARGET [SHEETS [SEED]]
//!   PROGRAM        the key program; `--self` stands for the reference's own
//!   OLDER_PROGRAM  the key program for the older player, or `--self`
//!   VECTORS        a folder of NAME.sheet with NAME.key or NAME.older, and NAME.table where the program is given a table
//!   OURS           the file of our own table
//!   TARGET         a folder for the tables that the program is given, and to which failing sheets and keys are saved
//!   SHEETS         so many random sheets without a table, and two for each five of them with a table

use driver::cases::Case;
use driver::tables::{cases as table_cases, least};
use driver::{cases, generate, limits, older, older_cases, program, self_tests, sheets, vectors};
use reference::check::ensure;
use reference::key_traits::{Marks, Trait};
use reference::report::Report;
use reference::tree::{Operator, THREE_OPERATORS, TWO_OPERATORS};
use std::path::{Path, PathBuf};
use std::process::ExitCode;

const SHEETS: usize = 36_300;
const SEED: u64 = 1987;

/// How many of a thousand sheets must show each of these: `I` in each place, about the marks and above a lifted node.
fn least_intersections() -> Vec<(Trait, usize)> {
    use Trait::*;
    let mut least = vec![
        (NoIntersection, 450),
        (IntersectionAnd(Marks::None), 100),
        (IntersectionAnd(Marks::GatheredAlready), 30),
        (IntersectionAnd(Marks::Gatherable), 40),
        (IntersectionAnd(Marks::NotGatherable), 15),
        (HolderBelowIntersection, 10),
        (HolderWithIntersection, 20),
        (LiftRefused(27), 400),
    ];
    for is_right in [false, true] {
        let operands = [None].into_iter().chain(THREE_OPERATORS.iter().copied().map(Some));
        least.extend(operands.map(|below| (Operand(Operator::Intersection, is_right, below), 60)));
        least.extend(TWO_OPERATORS.iter().map(|&above| (Operand(above, is_right, Some(Operator::Intersection)), 60)));
    }
    for letter in ['i', 'j'] {
        for level in 2..=4 {
            least.push((IntersectionAsParent(level, letter), 30));
            least.extend(['a', 'b', 'c', 'd'].map(|parent| (IntersectionAsGrandparent(level, parent, letter), 5)));
        }
        least.extend((5..=9).flat_map(|state| [3, 4].map(|level| (IntersectionAboveT(level, state, letter), 1))));
        // In states 1 to 4 the step is done, and the next one of the same lift is refused.
        for state in 1..=4 {
            least.extend([StepAtLevel3(state, letter), StepDeeper(state, letter)].map(|done| (done, 1)));
            least.push((IntersectionAtNextStep(state, letter), 2));
        }
    }
    least
}

/// How often each category must be met when `sheets` random sheets are tried.
fn least_counts(sheets: usize) -> Vec<(String, usize)> {
    let rounds = sheets / generate::shares();
    let per_thousand = |trait_: Trait, count: usize| (format!("{trait_:?}"), count * sheets / 1000);
    let mut least: Vec<(String, usize)> =
        generate::KINDS.iter().map(|(name, share, _)| (format!("sheets: {name}"), share * rounds)).collect();
    least.push((format!("{:?}", Trait::Refused(1)), 4));
    least.extend((2..=10).map(|number| per_thousand(Trait::Refused(number), 3)));
    least.extend((13..=16).map(|number| per_thousand(Trait::LiftRefused(number), 5)));
    least.extend([
        (format!("{:?}", Trait::LongestLoad), limits::LONG_KEYS),
        per_thousand(Trait::GroupPastLast, 3),
        per_thousand(Trait::FiveDigitGroup, 200),
        per_thousand(Trait::FiveDigitMark, 50),
        per_thousand(Trait::LastGroup, 20),
        per_thousand(Trait::MostNodes, 5),
        per_thousand(Trait::Marked(Marks::None), 100),
        per_thousand(Trait::Marked(Marks::GatheredAlready), 50),
        per_thousand(Trait::Marked(Marks::Gatherable), 100),
        per_thousand(Trait::Marked(Marks::NotGatherable), 50),
        per_thousand(Trait::LiftDone, 500),
        per_thousand(Trait::LiftedTo8191Nodes, 2),
    ]);
    for state in 1..=9 {
        let level_2 = if state < 5 { Trait::StepAtLevel2(state) } else { Trait::StepRefused(2, state) };
        least.push(per_thousand(level_2, 10));
        for input in ['a', 'b', 'c', 'd'] {
            least.push(per_thousand(Trait::StepAtLevel3(state, input), 2));
            least.push(per_thousand(Trait::StepDeeper(state, input), 4));
            least.push(per_thousand(Trait::StepFollowed(state, input), 3));
        }
    }
    least.extend(least_intersections().into_iter().map(|(trait_, count)| per_thousand(trait_, count)));
    least
}

/// All fixed sheets, with a category where they have one of their own.
fn fixed_cases(folder: &String) -> Result<Vec<(Option<String>, Case)>, String> {
    let mut cases = vectors::sheets(folder.as_ref()).map_err(|error| format!("{folder}: {error}"))?;
    cases.extend(cases::cases());
    cases.extend(older_cases::cases());
    cases.extend(limits::limits());
    let (one_fault, others) = table_cases::cases();
    let others = cases.into_iter().chain(others).map(|case| (None, case));
    Ok(others.chain(one_fault.into_iter().map(|(category, case)| (Some(category), case))).collect())
}

fn run(arguments: &[String]) -> Result<bool, String> {
    let [program, older_program, vectors, ours, target, rest @ ..] = arguments else {
        return Err("usage: driver PROGRAM OLDER_PROGRAM VECTORS OURS TARGET [SHEETS [SEED]]".to_string());
    };
    let number = |at: usize, default: u64| rest.get(at).map_or(Ok(default), |text| text.parse::<u64>());
    let random_sheets = number(0, SHEETS as u64).map_err(|error| error.to_string())? as usize;
    let table_sheets = random_sheets * 2 / 5;
    let seed = number(1, SEED).map_err(|error| error.to_string())?;

    let cases = fixed_cases(vectors)?;
    let mut report = Report::new(PathBuf::from(target));
    let is_before = vectors::before_both(vectors.as_ref()).map_err(|error| format!("{vectors}: {error}"))?;
    report.test("the vectors from after request 5 have nothing of request 6", ensure(is_before, "one of them has"));
    self_tests::run(&cases, &mut report);
    let ours = std::fs::read(ours).map_err(|error| format!("{ours}: {error}"))?;
    self_tests::our_table(&ours, &mut report);
    let subject = sheets::Subject {
        program: &program::named(program, "reference_key")?,
        older_program: &program::named(older_program, "reference_older_key")?,
        folder: Path::new(target),
        cases: &cases,
        random_sheets,
        table_sheets,
        seed,
    };
    let mut report = subject.try_all(report).map_err(|error| format!("{target}: {error}"))?;
    report.categories(&least_counts(random_sheets));
    report.categories_met(&least::least_counts(table_sheets));
    report.categories_met(&older::least_counts(random_sheets, table_sheets, limits::LONG_KEYS));
    Ok(report.finish("tests"))
}

fn main() -> ExitCode {
    let arguments: Vec<String> = std::env::args().skip(1).collect();
    match run(&arguments) {
        Ok(true) => ExitCode::SUCCESS,
        Ok(false) => ExitCode::FAILURE,
        Err(fault) => {
            eprintln!("driver: {fault}");
            ExitCode::FAILURE
        }
    }
}
