//! `lift_with`: tables that loading could not have made are refused with 29, before every other fault.

use crate::faults::{put, Fault};
use crate::inputs::same;
use crate::lift_tests::{Input, FAULTS};
use crate::school_lifts::compare;
use calls::library::Rows;
use reference::bad_words::{wrong_under, FILLINGS, WORD_FAULTS};
use reference::calls::TREE_BUFFER;
use reference::random::Random;
use reference::report::Report;
use reference::table::{School, LINES, MOST_SIGNS};
use reference::tree::{DIFFERENCE, UNION};
use reference::words::{random_school, Style};

/// What spoils a table at a row; whether it did.
type Spoil = (&'static str, fn(&mut Rows, usize, &mut Random) -> bool);

/// The row's signs.
fn row(rows: &mut Rows, at: usize) -> &mut [u8] {
    &mut rows.signs[at * MOST_SIGNS..(at + 1) * MOST_SIGNS]
}

fn length(rows: &Rows, at: usize) -> usize {
    usize::from(rows.lengths[at])
}

/// A byte past the word, where there is room.
fn byte_past_word(rows: &mut Rows, at: usize, past: impl Fn(usize) -> usize, byte: u8) -> bool {
    let length = length(rows, at);
    if length < MOST_SIGNS {
        row(rows, at)[past(length)] = byte;
    }
    length < MOST_SIGNS
}

fn other_length(rows: &mut Rows, at: usize, length: usize) -> bool {
    let changed = self::length(rows, at) != length;
    rows.lengths[at] = length as u8;
    changed
}

/// Another byte in place of one of the word's signs.
fn other_sign(rows: &mut Rows, at: usize, random: &mut Random) -> bool {
    let place = random.below(length(rows, at));
    row(rows, at)[place] = random.pick(b"\0abcd&*,EI \xff\x80\xc1");
    true
}

const SPOILS: [Spoil; 21] = [
    ("1,115 signs", |rows, _, _| rows.signs.pop().is_some()),
    ("1,117 signs", |rows, _, _| {
        rows.signs.push(0);
        true
    }),
    ("a row too few", |rows, at, _| rows.signs.drain(at * MOST_SIGNS..(at + 1) * MOST_SIGNS).count() > 0),
    ("a row too many", |rows, at, _| {
        let copy = row(rows, at).to_vec();
        rows.signs.extend(copy);
        true
    }),
    ("no signs", |rows, _, _| !std::mem::take(&mut rows.signs).is_empty()),
    ("35 lengths", |rows, at, _| rows.lengths.remove(at) > 0),
    ("37 lengths", |rows, at, _| {
        rows.lengths.push(rows.lengths[at]);
        true
    }),
    ("no lengths", |rows, _, _| !std::mem::take(&mut rows.lengths).is_empty()),
    ("a length of 0", |rows, at, _| other_length(rows, at, 0)),
    ("a row of zeros and its length 0", |rows, at, _| {
        row(rows, at).fill(0);
        other_length(rows, at, 0)
    }),
    ("a length of 32", |rows, at, _| other_length(rows, at, 32)),
    ("a length of 255", |rows, at, _| other_length(rows, at, 255)),
    ("a length one too small", |rows, at, _| other_length(rows, at, length(rows, at) - 1)),
    ("a length one too large", |rows, at, _| other_length(rows, at, length(rows, at) + 1)),
    ("a length of 31", |rows, at, _| other_length(rows, at, MOST_SIGNS)),
    ("a sign behind the word", |rows, at, _| byte_past_word(rows, at, |length| length, b'+')),
    ("a byte behind the word", |rows, at, _| byte_past_word(rows, at, |length| length, 1)),
    ("a sign at the row's end", |rows, at, _| byte_past_word(rows, at, |_| MOST_SIGNS - 1, b'A')),
    ("a byte at the row's end", |rows, at, _| byte_past_word(rows, at, |_| MOST_SIGNS - 1, 128)),
    ("a byte that is no sign", other_sign),
    ("a word in lower case", |rows, at, _| {
        row(rows, at).make_ascii_lowercase();
        true
    }),
];

/// How often each kind of table must have been tried.
pub fn least_counts() -> Vec<(String, usize)> {
    let spoils = SPOILS.iter().map(|spoil| (spoil.0, 2 * LINES));
    // A at level 1 can select rightly in six lines.
    let words = WORD_FAULTS.iter().map(|fault| (fault.0, if fault.0 == "A at level 1" { 24 } else { 2 * LINES }));
    let all = spoils.chain(words).chain([("otherwise under one filling", 500)]);
    all.map(|(name, least)| (format!("lift with: {name}"), least)).collect()
}

/// The faults of the other arguments, of which none, some or all are there.
fn any_input(random: &mut Random) -> Input {
    let (u, d) = (UNION, DIFFERENCE);
    let trees: [&[u16]; 4] = [&[1, 2, d, 3, u, 4, u], &[1, 2, d, 3, u], &[1, 2, u, 3, u], &[1]];
    let tree = random.pick(&trees).to_vec();
    let mut input = Input { tree, position: 0, levels: 1, buffer: TREE_BUFFER };
    let chosen: Vec<Fault<Input>> = FAULTS.into_iter().filter(|_| random.one_in(3)).collect();
    put(chosen.into_iter(), 0, &mut input);
    input
}

/// The table is refused, whatever else is wrong; nothing is written (`compare`).
fn refused(name: &str, rows: &Rows, random: &mut Random, report: &mut Report) {
    for _ in 0..2 {
        let answered = compare(name, rows, &any_input(random), report);
        report.test(&format!("lift with, {name} by hand"), same("number", &answered, &29));
    }
}

/// The same rows with another word of at most 31 signs.
fn with_word(rows: &Rows, at: usize, word: &[u8]) -> Rows {
    let mut rows = rows.clone();
    row(&mut rows, at).fill(0);
    row(&mut rows, at)[..word.len()].copy_from_slice(word);
    rows.lengths[at] = word.len() as u8;
    rows
}

fn at_row(school: &School, at: usize, random: &mut Random, report: &mut Report) {
    let good = Rows::new(school);
    for (name, spoil) in SPOILS {
        let mut rows = good.clone();
        if spoil(&mut rows, at, random) {
            refused(name, &rows, random, report);
        }
    }
    let word = &school.words()[at];
    for (name, bad) in WORD_FAULTS {
        if let Some(bad) = bad(at, word, random).filter(|bad| bad.len() <= MOST_SIGNS) {
            refused(name, &with_word(&good, at, &bad), random, report);
        }
    }
    for filling in FILLINGS {
        if let Some(bad) = wrong_under(filling, at, random) {
            refused("otherwise under one filling", &with_word(&good, at, &bad), random, report);
        }
    }
}

pub fn run(report: &mut Report) {
    let mut random = Random::new(43);
    for at in 0..LINES {
        for style in [Style::Short, Style::Any] {
            let school = random_school(style, &mut random);
            at_row(&school, at, &mut random, report);
        }
    }
    let empty = Rows { signs: Vec::new(), lengths: Vec::new() };
    let zeros = Rows { signs: vec![0; LINES * MOST_SIGNS], lengths: vec![0; LINES] };
    for (name, rows) in [("no signs and no lengths", empty), ("zeros", zeros)] {
        refused(name, &rows, &mut random, report);
    }
}
