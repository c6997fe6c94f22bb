//! Lines of a table that get 28, each with one fault.

use reference::random::Random;
use reference::table::{line_of, state_and_input, MOST_SIGNS};
use reference::words::lengthened;

/// What is put in place of a line's bytes: from the line, counted from 0, and its word. `None` if there is no such.
pub type LineFault = (&'static str, fn(usize, &[u8], &mut Random) -> Option<Vec<u8>>);

/// A line of other fields, as they stand.
fn fields(state: &str, parted: &str, input: &str, word: &[u8], end: &str) -> Option<Vec<u8>> {
    Some([state.as_bytes(), parted.as_bytes(), input.as_bytes(), parted.as_bytes(), word, end.as_bytes()].concat())
}

fn names(line: usize) -> (String, String) {
    let (state, input) = state_and_input(line);
    (state.to_string(), input.to_string())
}

/// The line with other signs.
fn with_word(line: usize, word: &[u8]) -> Option<Vec<u8>> {
    Some(line_of(line, word))
}

/// The word with a byte that is no sign in place of one, or before or behind all.
fn with_other_sign(line: usize, word: &[u8], random: &mut Random) -> Option<Vec<u8>> {
    let byte = random.pick(b"abcdEUI*&,./ @GZ0129_|~\0\r\x0b\x1f\x7f\x80\xff\xad\xc1");
    let at = random.below(word.len());
    let mut word = word.to_vec();
    match random.below(4) {
        0 => word.insert(0, byte),
        1 => word.push(byte),
        _ => word[at] = byte,
    }
    word.truncate(MOST_SIGNS + 1);
    with_word(line, &word)
}

fn with_other_letter(line: usize, word: &[u8], random: &mut Random) -> Option<Vec<u8>> {
    let (state, input) = names(line);
    let other = random.pick(&["a", "b", "c", "d", "e", "`", "A", "B", "C", "D", "ab", "aa", "", "1", "i"]);
    if other == input {
        fields(&state, "\t", "e", word, "\n")
    } else {
        fields(&state, "\t", other, word, "\n")
    }
}

fn with_other_state(line: usize, word: &[u8], random: &mut Random) -> Option<Vec<u8>> {
    let (state, input) = names(line);
    let other = random.pick(&["0", "1", "2", "3", "4", "5", "6", "7", "8", "9", "10", "", "a", "01", "-1", ":"]);
    if other == state {
        fields("0", "\t", &input, word, "\n")
    } else {
        fields(other, "\t", &input, word, "\n")
    }
}

/// Each gets 28.
pub const FORM_FAULTS: [LineFault; 24] = [
    ("a word of no signs", |line, _, _| with_word(line, b"")),
    ("no word", |line, _, _| Some(format!("{}\t{}\n", names(line).0, names(line).1).into_bytes())),
    ("only a state", |line, _, _| Some(format!("{}\n", names(line).0).into_bytes())),
    ("an empty line", |_, _, _| Some(b"\n".to_vec())),
    ("32 signs", |line, word, random| {
        let mut word = lengthened(word.to_vec(), MOST_SIGNS, None, random);
        word.resize(MOST_SIGNS + 1, b'B');
        with_word(line, &word)
    }),
    ("33 signs that select rightly", |line, word, random| {
        with_word(line, &lengthened(word.to_vec(), MOST_SIGNS + 2, None, random)).filter(|bytes| bytes.len() == 38)
    }),
    ("2,000 signs", |line, word, _| with_word(line, &[word, &b"B+".repeat(1000)].concat())),
    ("another sign", with_other_sign),
    ("a word in lower case", |line, word, _| {
        with_word(line, &word.to_ascii_lowercase()).filter(|_| word.iter().any(u8::is_ascii_uppercase))
    }),
    ("another state", with_other_state),
    ("a state with a leading nought", |line, word, _| {
        fields(&format!("0{}", names(line).0), "\t", &names(line).1, word, "\n")
    }),
    ("a state with a sign", |line, word, _| fields(&format!("+{}", names(line).0), "\t", &names(line).1, word, "\n")),
    ("another letter", with_other_letter),
    ("a letter in upper case", |line, word, _| {
        fields(&names(line).0, "\t", &names(line).1.to_ascii_uppercase(), word, "\n")
    }),
    ("spaces for tabs", |line, word, _| fields(&names(line).0, " ", &names(line).1, word, "\n")),
    ("a space for the first tab", |line, word, _| {
        Some([format!("{} {}\t", names(line).0, names(line).1).as_bytes(), word, b"\n"].concat())
    }),
    ("a space for the second tab", |line, word, _| {
        Some([format!("{}\t{} ", names(line).0, names(line).1).as_bytes(), word, b"\n"].concat())
    }),
    ("two tabs each", |line, word, _| fields(&names(line).0, "\t\t", &names(line).1, word, "\n")),
    ("no tabs", |line, word, _| fields(&names(line).0, "", &names(line).1, word, "\n")),
    ("a tab before", |line, word, _| Some([b"\t", &line_of(line, word)[..]].concat())),
    ("a tab behind", |line, word, _| fields(&names(line).0, "\t", &names(line).1, word, "\t\n")),
    ("CR LF", |line, word, _| fields(&names(line).0, "\t", &names(line).1, word, "\r\n")),
    ("state and letter exchanged", |line, word, _| fields(&names(line).1, "\t", &names(line).0, word, "\n")),
    ("no LF", |line, word, _| fields(&names(line).0, "\t", &names(line).1, word, "")),
];
