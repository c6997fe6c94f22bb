//! Runs of a questions program with and without an index, and of a key program on every question.

use super::trial::{Program, Trial};
use reference::check::ensure;
use reference::device::Device;
use reference::key::key_bytes;
use reference::questions::{all, questions_bytes};
use reference::report::Report;
use reference::sheet::print_tree;
use std::ffi::OsString;
use std::os::unix::ffi::OsStringExt;

pub const QUESTIONS: usize = 3477;
/// All indices up to this one are tried.
const LAST_TRIED: usize = 4000;
pub const REFUSED: &[u8] = b"NO\t30\n";

const WHOLE_LIST: &str = "program: the whole list";
const INDEX: &str = "program: an index";
const BY_HAND: &str = "program: an index by hand";
const NO_INDEX: &str = "program: no index of a question";
const MORE_ARGUMENTS: &str = "program: further arguments";
const KEY: &str = "key of a question";

pub fn least_counts() -> Vec<(String, usize)> {
    let least = [
        (WHOLE_LIST, 1),
        (INDEX, LAST_TRIED + 1),
        (BY_HAND, HAND_LINES.len()),
        (NO_INDEX, 60),
        (MORE_ARGUMENTS, 6),
        (KEY, QUESTIONS),
    ];
    least.map(|(kind, least)| (kind.to_string(), least)).to_vec()
}

const HAND_LINES: [&str; 10] = [
    "0\t1\n",
    "2\t3\n",
    "3\t1\t1\tU\n",
    "20\t3\t3\tD\n",
    "21\t1\t1\t1\tU\tU\n",
    "38\t1\t1\tU\t3\tD\n",
    "236\t3\t3\tD\t3\tD\n",
    "237\t1\t1\t1\t1\tU\tU\tU\n",
    "2397\t3\t1\t1\t1\tU\tU\tU\n",
    "3476\t3\t3\tD\t3\tD\t3\tD\n",
];

/// Arguments that are no decimal fields.
const NO_FIELDS: [&str; 36] = [
    "", "-1", "+1", "-0", "+0", "01", "00", "000", "007", "03476", "1 ", " 1", " ", "1\t", "\t1", "1\n", "\n", "1\r",
    "1x", "x", "x1", "U", "3476.0", "3476.", ".5", "1,000", "1_000", "1e3", "0x1", "1u", "1-", "1+1", "--", "--sheet",
    "٣", "３",
];

/// Numbers past the last, whose low bits often are an index, and long fields with leading noughts.
fn past_the_last() -> Vec<String> {
    let powers = [12, 13, 16, 31, 32, 63, 64, 127].map(|bit| 1_u128 << bit);
    let past = powers.into_iter().flat_map(|power| [0, 1, 5, 3476].map(|index| (power + index).to_string()));
    let others = ["34760", "34769", "10000", "99999", "65535", "4294967295", "18446744073709551615"];
    // 2 to the power 128, and 5 more.
    let long = ["340282366920938463463374607431768211456", "340282366920938463463374607431768211461"];
    let digits = [40, 5000, 100_000].into_iter().flat_map(|count| ["1", "9"].map(|digit| digit.repeat(count)));
    let noughts = [40, 5000].into_iter().flat_map(|count| ["1", "3476"].map(|last| "0".repeat(count) + last));
    past.chain(others.into_iter().chain(long).map(str::to_string)).chain(digits).chain(noughts).collect()
}

fn no_indices() -> Vec<Trial> {
    let refused = |argument: &str| Trial::new(NO_INDEX, Program::Questions, &[argument], REFUSED.to_vec());
    let mut trials: Vec<Trial> = NO_FIELDS.iter().map(|argument| refused(argument)).collect();
    trials.extend(past_the_last().iter().map(|argument| refused(argument)));
    // Bytes that are no text.
    for bytes in [vec![0xff], vec![b'1', 0xff], vec![0xb1], vec![0x01]] {
        trials.push(Trial { arguments: vec![OsString::from_vec(bytes)], ..refused("") });
    }
    trials
}

fn more_arguments() -> Vec<Trial> {
    let arguments: [(&[&str], &[u8]); 6] = [
        (&["3", "4"], b"3\t1\t1\tU\n"),
        (&["3", "x"], b"3\t1\t1\tU\n"),
        (&["3", ""], b"3\t1\t1\tU\n"),
        (&["3477", "0"], REFUSED),
        (&["", "0"], REFUSED),
        (&["0", "1", "2", "3477"], b"0\t1\n"),
    ];
    let trial =
        |(arguments, line): (&[&str], &[u8])| Trial::new(MORE_ARGUMENTS, Program::Questions, arguments, line.to_vec());
    arguments.into_iter().map(trial).collect()
}

/// The question as a sheet, and the key that is due for it.
pub fn sheet_and_key(index: usize) -> (Vec<u8>, Vec<u8>) {
    let sheet = print_tree(&all()[index]);
    let key = key_bytes(Device::Newer, &sheet);
    (sheet, key)
}

/// What the questions program prints for an index.
pub fn line(index: usize) -> Vec<u8> {
    questions_bytes(Some(index.to_string().as_bytes()))
}

pub fn trials() -> Vec<Trial> {
    let program = Program::Questions;
    let mut trials = vec![Trial::new(WHOLE_LIST, program, &[], questions_bytes(None))];
    trials.extend((0..=LAST_TRIED).map(|index| Trial::new(INDEX, program, &[&index.to_string()], line(index))));
    trials.extend(HAND_LINES.iter().map(|line| {
        let index = line.split('\t').next().unwrap_or_default();
        Trial::new(BY_HAND, program, &[index], line.as_bytes().to_vec())
    }));
    trials.extend(no_indices());
    trials.extend(more_arguments());
    trials.extend((0..QUESTIONS).map(|index| {
        let (input, key) = sheet_and_key(index);
        Trial { input, ..Trial::new(KEY, Program::Key, &[], key) }
    }));
    trials
}

/// The reference's own list and keys, as far as they are known by hand.
pub fn reference_tests(report: &mut Report) {
    let list = String::from_utf8_lossy(&questions_bytes(None)).into_owned();
    let lines: Vec<&str> = list.split_inclusive('\n').collect();
    report.test("reference, lines", ensure(lines.len() == QUESTIONS, &format!("{}", lines.len())));
    let missing = HAND_LINES.iter().find(|line| !lines.contains(line));
    report.test("reference, lines by hand", missing.map_or(Ok(()), |line| Err(format!("no line {line:?}"))));
    let is_code = |index: &usize| sheet_and_key(*index).1.starts_with(b"LOAD\t");
    let refused = (0..QUESTIONS).find(|index| !is_code(index));
    report.test("reference, keys", refused.map_or(Ok(()), |index| Err(format!("question {index} has no code"))));
}
