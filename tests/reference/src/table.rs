//! A school's move table (02, Ticket 7): a word for each state and input, loaded from a file or lent by value.

use crate::refusal::{Refusal, TABLE_FORM, TABLE_WORD};
use crate::sheet::Fault;
use crate::tree::{select, DIFFERENCE, UNION};
use std::sync::OnceLock;

pub const STATES: usize = 9;
pub const INPUTS: [char; 4] = ['a', 'b', 'c', 'd'];
/// A table's lines.
pub const LINES: usize = STATES * INPUTS.len();
pub const MOST_SIGNS: usize = 31;
/// The level of A in a word.
const LEVEL_OF_A: usize = 2;

/// T by its state, in each order of a union's operands. Operands come first.
pub const T_WORDS: [&[&str]; STATES] = [
    &["AB+C+", "BA+C+", "CAB++", "CBA++"],
    &["CAB+-", "CBA+-"],
    &["AB-C-"],
    &["BA-C-"],
    &["AB+C-", "BA+C-"],
    &["AB-C+", "CAB-+"],
    &["BA-C+", "CBA-+"],
    &["CAB--"],
    &["CBA--"],
];

/// T with D.
pub fn with_d(t: &str, input: char) -> String {
    match input {
        'a' => format!("{t}D+"),
        'b' => format!("{t}D-"),
        'c' => format!("D{t}+"),
        _ => format!("D{t}-"),
    }
}

/// The state and the input of a line, lines counted from 0.
pub fn state_and_input(line: usize) -> (usize, char) {
    (line / INPUTS.len() + 1, INPUTS[line % INPUTS.len()])
}

/// What a formula of A, B, C and D selects under each of the sixteen fillings: bit f is for filling f, in which A is
/// in when bit 0 of f is 1, B by bit 1, C by bit 2 and D by bit 3.
pub type Meaning = [u64; 1];

/// The meanings of A, B, C and D.
pub const LETTERS: [Meaning; 4] = [[0b1010_1010_1010_1010], [0b1100_1100_1100_1100], [0xf0f0], [0xff00]];

/// A word as a list in which A, B, C and D are the groups 1 to 4.
pub fn list_of(word: &[u8]) -> Vec<u16> {
    let number = |&sign: &u8| match sign {
        b'+' => UNION,
        b'-' => DIFFERENCE,
        letter => u16::from(letter - b'A') + 1,
    };
    word.iter().map(number).collect()
}

/// The meaning of a word that makes a tree.
pub fn meaning(word: &[u8]) -> Meaning {
    select(&list_of(word), |letter| LETTERS[usize::from(letter) - 1])
}

/// What T with D selects, by line.
pub fn left_sides() -> &'static [Meaning; LINES] {
    static LEFT_SIDES: OnceLock<[Meaning; LINES]> = OnceLock::new();
    LEFT_SIDES.get_or_init(|| {
        std::array::from_fn(|line| {
            let (state, input) = state_and_input(line);
            meaning(with_d(T_WORDS[state - 1][0], input).as_bytes())
        })
    })
}

fn is_sign(byte: &u8) -> bool {
    b"ABCD+-".contains(byte)
}

/// The level of each sign, found from the word's end; `None` if the word makes no tree.
fn levels(word: &[u8]) -> Option<Vec<usize>> {
    let mut levels = vec![0; word.len()];
    let mut due = vec![0];
    for at in (0..word.len()).rev() {
        let level = due.pop()?;
        levels[at] = level;
        if matches!(word[at], b'+' | b'-') {
            due.extend([level + 1, level + 1]);
        }
    }
    due.is_empty().then_some(levels)
}

/// Whether a word of allowed signs may stand in this line.
fn is_entry(word: &[u8], line: usize) -> bool {
    let Some(levels) = levels(word) else { return false };
    let mut levels_of_a = word.iter().zip(levels).filter(|(&sign, _)| sign == b'A').map(|(_, level)| level);
    levels_of_a.next() == Some(LEVEL_OF_A) && levels_of_a.next().is_none() && meaning(word) == left_sides()[line]
}

/// The word of a line, counted from 0, or 28 or 29; `bytes` includes the line's LF if it has one.
fn word_of_line(bytes: &[u8], line: usize) -> Result<&[u8], Refusal> {
    let (state, input) = state_and_input(line);
    let fields: Vec<&[u8]> = bytes.strip_suffix(b"\n").ok_or(TABLE_FORM)?.split(|&byte| byte == b'\t').collect();
    let [first, second, word] = fields[..] else { return Err(TABLE_FORM) };
    let in_order = first == state.to_string().as_bytes() && second == input.to_string().as_bytes();
    let of_signs = (1..=MOST_SIGNS).contains(&word.len()) && word.iter().all(is_sign);
    if !in_order || !of_signs {
        return Err(TABLE_FORM);
    }
    is_entry(word, line).then_some(word).ok_or(TABLE_WORD)
}

/// A loaded table.
#[derive(Clone, Debug, PartialEq, Eq)]
pub struct School {
    words: Vec<Vec<u8>>,
}

/// The sizes of a table held by value.
pub const SIGN_BYTES: usize = LINES * MOST_SIGNS;
pub const LENGTH_BYTES: usize = LINES;

impl School {
    /// The table of a file's bytes.
    pub fn load(bytes: &[u8]) -> Result<School, Fault> {
        let mut words = Vec::new();
        for line in bytes.split_inclusive(|&byte| byte == b'\n') {
            let number = words.len() + 1;
            let fault = |refusal: Refusal| Fault { number: refusal, line: number };
            if number > LINES {
                return Err(fault(TABLE_FORM));
            }
            words.push(word_of_line(line, number - 1).map_err(fault)?.to_vec());
        }
        if words.len() < LINES {
            return Err(Fault { number: TABLE_FORM, line: words.len() + 1 });
        }
        Ok(School { words })
    }

    /// The table of these words, or `None` if loading could not have made it.
    pub fn of_words(words: Vec<Vec<u8>>) -> Option<School> {
        let fits = |(line, word): (usize, &Vec<u8>)| {
            (1..=MOST_SIGNS).contains(&word.len()) && word.iter().all(is_sign) && is_entry(word, line)
        };
        (words.len() == LINES && words.iter().enumerate().all(fits)).then_some(School { words })
    }

    /// The table that is held so by value: rows of signs, each with zeros behind its word, and the words' lengths.
    pub fn of_rows(signs: &[u8], lengths: &[u8]) -> Option<School> {
        if signs.len() != SIGN_BYTES || lengths.len() != LENGTH_BYTES {
            return None;
        }
        let word = |(row, &length): (&[u8], &u8)| {
            let (word, rest) = row.split_at_checked(usize::from(length))?;
            rest.iter().all(|&byte| byte == 0).then(|| word.to_vec())
        };
        School::of_words(signs.chunks(MOST_SIGNS).zip(lengths).map(word).collect::<Option<_>>()?)
    }

    /// The same by value.
    pub fn rows(&self) -> (Vec<u8>, Vec<u8>) {
        let row = |word: &Vec<u8>| [&word[..], &vec![0; MOST_SIGNS - word.len()]].concat();
        (self.words.iter().flat_map(row).collect(), self.words.iter().map(|word| word.len() as u8).collect())
    }

    pub fn words(&self) -> &[Vec<u8>] {
        &self.words
    }

    pub fn word(&self, state: usize, input: char) -> &[u8] {
        let at = INPUTS.iter().position(|&letter| letter == input).expect("an input letter");
        &self.words[(state - 1) * INPUTS.len() + at]
    }

    /// The file's bytes.
    pub fn print(&self) -> Vec<u8> {
        (0..LINES).flat_map(|line| line_of(line, &self.words[line])).collect()
    }
}

/// The bytes of a line, counted from 0, with this word.
pub fn line_of(line: usize, word: &[u8]) -> Vec<u8> {
    let (state, input) = state_and_input(line);
    [format!("{state}\t{input}\t").as_bytes(), word, b"\n"].concat()
}

/// The lists of A, B, C and D put in place of a word's letters, and A's position.
pub fn tree_of(word: &[u8], parts: &[Vec<u16>; 4]) -> (Vec<u16>, usize) {
    let (mut tree, mut position) = (Vec::new(), 0);
    for &sign in word {
        match sign {
            b'+' => tree.push(UNION),
            b'-' => tree.push(DIFFERENCE),
            letter => tree.extend(&parts[usize::from(letter - b'A')]),
        }
        if sign == b'A' {
            position = tree.len() - 1;
        }
    }
    (tree, position)
}
