//! Words of allowed signs that no table may have, each with one fault.

use crate::random::Random;
use crate::table::{left_sides, meaning, LINES};
use crate::words::{good_word, word_at_level, word_with_a_twice, Style};

/// A word of allowed signs that fails: from the line and its good word.
pub type WordFault = (&'static str, fn(usize, &[u8], &mut Random) -> Option<Vec<u8>>);

/// A word with A at another level that selects rightly.
fn at_level(level: usize, line: usize, random: &mut Random) -> Option<Vec<u8>> {
    word_at_level(level, &left_sides()[line], Style::Short, random)
}

/// The word of another line that selects otherwise.
fn of_another_line(line: usize, _: &[u8], random: &mut Random) -> Option<Vec<u8>> {
    let others: Vec<usize> = (0..LINES).filter(|&other| left_sides()[other] != left_sides()[line]).collect();
    Some(good_word(random.pick(&others), Style::Short, random))
}

/// Union for difference and difference for union.
fn operators_exchanged(word: &[u8]) -> Vec<u8> {
    let exchange = |&sign: &u8| match sign {
        b'+' => b'-',
        b'-' => b'+',
        letter => letter,
    };
    word.iter().map(exchange).collect()
}

/// Each gets 29, as long as the word has 31 signs at most.
pub const WORD_FAULTS: [WordFault; 16] = [
    ("two trees", |_, word, _| Some([word, b"B"].concat())),
    ("an operand too few", |_, word, _| Some([word, b"+"].concat())),
    ("an operator too few", |_, word, _| Some(word[..word.len() - 1].to_vec())),
    ("only an operator", |_, _, random| Some(vec![random.pick(b"+-")])),
    ("one letter", |_, _, random| Some(vec![random.pick(b"ABCD")])),
    ("two signs", |_, _, random| Some(vec![random.pick(b"ABCD+-"), random.pick(b"ABCD+-")])),
    ("operators first", |_, word, _| Some(word.iter().rev().copied().collect())),
    ("an operator before its operands", |_, word, _| Some([&word[word.len() - 1..], &word[..word.len() - 1]].concat())),
    ("A twice at level 2", |line, _, random| word_with_a_twice(&left_sides()[line], random)),
    ("A joined with itself", |_, word, _| {
        let at = word.iter().position(|&sign| sign == b'A')?;
        Some([&word[..at], b"AA+", &word[at + 1..]].concat())
    }),
    ("A at level 1", |line, _, random| at_level(1, line, random)),
    ("A at level 3", |line, _, random| at_level(3, line, random)),
    ("A at level 4", |line, _, random| at_level(4, line, random)),
    ("no A", |_, word, random| {
        let other = random.pick(b"BCD");
        Some(word.iter().map(|&sign| if sign == b'A' { other } else { sign }).collect())
    }),
    ("operators exchanged", |line, word, _| {
        let word = operators_exchanged(word);
        (meaning(&word) != left_sides()[line]).then_some(word)
    }),
    ("another line's word", of_another_line),
];

/// The sixteen fillings less the empty one, under which all words select alike.
pub const FILLINGS: std::ops::RangeInclusive<usize> = 1..=15;

/// A word with A once at level 2 that selects otherwise under this one filling.
pub fn wrong_under(filling: usize, line: usize, random: &mut Random) -> Option<Vec<u8>> {
    word_at_level(2, &[left_sides()[line][0] ^ 1 << filling], Style::Short, random)
}
