//! Tries the static library's calls beside the reference.
//!
//! calls TARGET    TARGET: a folder to which failing inputs are saved

mod both_players;
mod coders;
mod compact_tests;
mod encode_tests;
mod faults;
mod gather_tests;
mod inputs;
mod intersection_lifts;
mod lift_tests;
mod older_encode_tests;
mod older_play_tests;
mod play_tests;
mod players;
mod question_lists;
mod question_tests;
mod register_tests;
mod school_lifts;
mod school_tables;

use inputs::{with_intersection, with_last_group, with_number_after};
use reference::report::Report;
use std::path::PathBuf;
use std::process::ExitCode;

/// How often each number must have been answered, also about the last group.
fn least_counts() -> Vec<(String, usize)> {
    let numbers: [(&str, &[usize]); 7] = [
        ("lift", &[0, 11, 12, 13, 14, 15, 16, 27]),
        ("lift with", &[0, 11, 12, 13, 14, 15, 16, 27, 29]),
        ("gather", &[0, 11, 12, 17, 18, 19]),
        ("encode", &[0, 12, 20]),
        ("play", &[0, 21, 22, 23, 24, 25]),
        ("older encode", &[0, 12, 20]),
        ("older play", &[0, 21, 22, 23, 24, 25]),
    ];
    let counts = |(call, numbers): (&str, &[usize])| -> Vec<(String, usize)> {
        numbers.iter().map(|number| (format!("{call}: answered {number}"), 30)).collect()
    };
    let lists = [
        ("lift", 12),
        ("lift with", 12),
        ("gather", 12),
        ("encode", 12),
        ("play, code", 23),
        ("play, patch", 25),
        ("older encode", 12),
        ("older play, code", 23),
        ("older play, patch", 25),
    ];
    let last_group = lists.map(|(list, number)| [(with_last_group(list), 100), (with_number_after(list, number), 10)]);
    let lifted: &[u32] = &[0, 12, 13, 14, 15, 16, 27];
    let calls: [(&str, &[u32]); 5] = [
        ("lift", lifted),
        ("lift with", lifted),
        ("gather", &[0, 12, 17, 18, 19]),
        ("encode", &[0, 12]),
        ("older encode", &[0, 12]),
    ];
    let about_intersection =
        calls.into_iter().flat_map(|(call, numbers)| numbers.iter().map(move |&number| (call, number)));
    let about_intersection = about_intersection.map(|(call, number)| (with_intersection(call, number), 20));
    let last_group = last_group.into_iter().flatten();
    numbers.into_iter().flat_map(counts).chain(last_group).chain(about_intersection).collect()
}

fn main() -> ExitCode {
    let Some(target) = std::env::args().nth(1) else {
        eprintln!("usage: calls TARGET");
        return ExitCode::FAILURE;
    };
    let mut report = Report::new(PathBuf::from(target));
    let tests: [(&str, fn(&mut Report)); 14] = [
        ("lift", lift_tests::run),
        ("lift about I", intersection_lifts::run),
        ("lift by a school's table", school_lifts::run),
        ("a school's table by value", school_tables::run),
        ("gather", gather_tests::run),
        ("compact", compact_tests::run),
        ("encode", encode_tests::run),
        ("play", play_tests::run),
        ("older encode", older_encode_tests::run),
        ("older play", older_play_tests::run),
        ("both players", both_players::run),
        ("registers", register_tests::run),
        ("tree at", question_tests::run),
        ("index of", question_lists::run),
    ];
    for (name, run) in tests {
        run(&mut report);
        println!("calls: {name} tried");
    }
    report.categories(&least_counts());
    report.categories_met(&school_lifts::least_counts());
    report.categories_met(&school_tables::least_counts());
    report.categories_met(&register_tests::least_counts());
    report.categories_met(&question_tests::least_counts());
    report.categories_met(&question_lists::least_counts());
    if report.finish("calls") {
        ExitCode::SUCCESS
    } else {
        ExitCode::FAILURE
    }
}
