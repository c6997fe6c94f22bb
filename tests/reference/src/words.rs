//! Random words for a school's table, made from what they are to select.

use crate::lift::lift;
use crate::random::Random;
use crate::table::{left_sides, state_and_input, tree_of, with_d, Meaning, School, LINES, MOST_SIGNS, T_WORDS};
use crate::tree::{DIFFERENCE, UNION};
use std::sync::OnceLock;

/// The fillings of B, C and D. A function of these is one bit for each, and 0 for the empty filling.
const FILLINGS: usize = 8;
const FUNCTIONS: usize = 1 << FILLINGS;
/// The functions B, C and D.
const VARIABLES: [(&[u8], u8); 3] = [(b"B", 0b1010_1010), (b"C", 0b1100_1100), (b"D", 0b1111_0000)];
/// The most signs of a formula beside A and a frame's sign, and how many formulas of one length are kept for a function.
const FORMULA_SIGNS: usize = 27;
const KEPT: usize = 3;

/// Formulas with their functions.
type Formulas = Vec<(usize, Vec<u8>)>;

/// Formulas of B, C and D by their function, the shortest first. Every function has some.
fn formulas() -> &'static [Vec<Vec<u8>>] {
    static FORMULAS: OnceLock<Vec<Vec<Vec<u8>>>> = OnceLock::new();
    FORMULAS.get_or_init(|| {
        let mut by_function = vec![Vec::new(); FUNCTIONS];
        for (function, formula) in formulas_by_length().into_iter().flatten() {
            by_function[function].push(formula);
        }
        by_function
    })
}

/// At each length, the formulas made of two shorter ones.
fn formulas_by_length() -> Vec<Formulas> {
    let mut random = Random::new(36);
    let mut by_length: Vec<Formulas> = vec![Vec::new(); FORMULA_SIGNS + 1];
    by_length[1] = VARIABLES.map(|(letter, function)| (function.into(), letter.to_vec())).to_vec();
    for length in (3..=FORMULA_SIGNS).step_by(2) {
        let mut made = Formulas::new();
        let mut counts = vec![0; FUNCTIONS];
        let mut left_lengths: Vec<usize> = (1..length - 1).step_by(2).collect();
        random.shuffle(&mut left_lengths);
        for left in left_lengths {
            join_all(&by_length[left], &by_length[length - 1 - left], &mut counts, &mut made);
        }
        random.shuffle(&mut made);
        by_length[length] = made;
    }
    by_length
}

/// Adds all unions and differences of these formulas, as long as a function has few of their length.
fn join_all(left: &Formulas, right: &Formulas, counts: &mut [usize], made: &mut Formulas) {
    for (first, first_signs) in left {
        for (second, second_signs) in right {
            for (function, sign) in [(first | second, b'+'), (first & !second, b'-')] {
                if counts[function] < KEPT {
                    counts[function] += 1;
                    made.push((function, [&first_signs[..], second_signs, &[sign]].concat()));
                }
            }
        }
    }
}

/// Whether words are as short as can be, of any length, or as long as can be.
#[derive(Clone, Copy, PartialEq, Eq)]
pub enum Style {
    Short,
    Any,
    Long,
}

impl Style {
    pub fn any(random: &mut Random) -> Style {
        random.pick(&[Style::Short, Style::Short, Style::Any, Style::Any, Style::Long])
    }

    fn formula(self, function: u8, random: &mut Random) -> Option<&'static [u8]> {
        let all = &formulas()[usize::from(function)];
        let within = if self == Style::Short { 1 } else { random.between(1, all.len().max(1)) };
        all.get(random.below(within)).map(Vec::as_slice)
    }
}

/// Functions of B, C and D, `count` of them, with which `value` comes to what is wanted under every filling. Its
/// arguments are the functions' bits under one filling, and A's.
fn functions(
    count: usize,
    value: impl Fn(usize, bool) -> bool,
    wanted: &Meaning,
    random: &mut Random,
) -> Option<Vec<u8>> {
    let mut functions = vec![0; count];
    for filling in 0..FILLINGS {
        let is_wanted = |bits: usize, a: bool| value(bits, a) == (wanted[0] >> (2 * filling + usize::from(a)) & 1 == 1);
        let allowed = |bits: &usize| filling > 0 || *bits == 0;
        let fits = |bits: &usize| allowed(bits) && is_wanted(*bits, false) && is_wanted(*bits, true);
        let choices: Vec<usize> = (0..1 << count).filter(fits).collect();
        if choices.is_empty() {
            return None;
        }
        let bits = random.pick(&choices);
        functions.iter_mut().enumerate().for_each(|(at, function)| *function |= ((bits >> at & 1) << filling) as u8);
    }
    Some(functions)
}

/// A part in a frame of this letter, with the sibling's value.
fn framed(letter: char, part: bool, sibling: bool) -> bool {
    match letter {
        'a' | 'c' => part | sibling,
        'b' => part & !sibling,
        _ => sibling & !part,
    }
}

/// The same as signs.
fn framed_signs(letter: char, part: &[u8], sibling: &[u8]) -> Vec<u8> {
    match letter {
        'a' => [part, sibling, b"+"].concat(),
        'b' => [part, sibling, b"-"].concat(),
        'c' => [sibling, part, b"+"].concat(),
        _ => [sibling, part, b"-"].concat(),
    }
}

/// A word with A once, under frames of these letters, innermost first; `None` if this try found none.
pub fn word_under(letters: &[char], wanted: &Meaning, style: Style, random: &mut Random) -> Option<Vec<u8>> {
    let value = |bits: usize, a: bool| {
        letters.iter().enumerate().fold(a, |part, (at, &letter)| framed(letter, part, bits >> at & 1 == 1))
    };
    let functions = functions(letters.len(), value, wanted, random)?;
    let mut word = b"A".to_vec();
    for (&letter, function) in letters.iter().zip(functions) {
        word = framed_signs(letter, &word, style.formula(function, random)?);
    }
    (word.len() <= MOST_SIGNS).then_some(word)
}

/// A word with A at this level; `None` if none was found in some tries.
pub fn word_at_level(level: usize, wanted: &Meaning, style: Style, random: &mut Random) -> Option<Vec<u8>> {
    (0..400).find_map(|_| {
        let letters: Vec<char> = (0..level).map(|_| random.pick(&['a', 'b', 'c', 'd'])).collect();
        word_under(&letters, wanted, style, random)
    })
}

/// A word with A twice, both at level 2; `None` if none was found in some tries.
pub fn word_with_a_twice(wanted: &Meaning, random: &mut Random) -> Option<Vec<u8>> {
    (0..400).find_map(|_| {
        let [left, right, above] = [(); 3].map(|()| random.pick(&['a', 'b', 'c', 'd']));
        let value =
            |bits: usize, a: bool| framed(above, framed(left, a, bits & 1 == 1), framed(right, a, bits >> 1 & 1 == 1));
        let functions = functions(2, value, wanted, random)?;
        let half = |letter: char, function: u8, random: &mut Random| {
            Style::Short.formula(function, random).map(|sibling| framed_signs(letter, b"A", sibling))
        };
        let word = framed_signs(above, &half(left, functions[0], random)?, &half(right, functions[1], random)?);
        (word.len() <= MOST_SIGNS).then_some(word)
    })
}

/// A letter other than A is replaced by a formula that selects the same, as long as the word has `most` signs at most.
/// With `copied` it is always this letter (if the word has it), which then stands there once more.
pub fn lengthened(mut word: Vec<u8>, most: usize, copied: Option<u8>, random: &mut Random) -> Vec<u8> {
    while word.len() + 2 <= most {
        let is_chosen = |sign: &u8| copied.map_or(b"BCD".contains(sign), |letter| *sign == letter);
        let places: Vec<usize> = (0..word.len()).filter(|&at| is_chosen(&word[at])).collect();
        if places.is_empty() {
            break;
        }
        let at = random.pick(&places);
        let (own, other) = (word[at], random.pick(b"BCD"));
        let longer = [vec![own, other, own, b'-', b'-'], vec![own, own, other, b'-', b'+'], vec![own, own, b'+']];
        let longer = &longer[if copied.is_some() || word.len() + 4 > most { 2 } else { random.below(3) }];
        word.splice(at..=at, longer.iter().copied());
    }
    word
}

/// A word that may stand in this line, counted from 0.
pub fn good_word(line: usize, style: Style, random: &mut Random) -> Vec<u8> {
    let wanted = &left_sides()[line];
    let word = loop {
        if let Some(word) = word_at_level(2, wanted, style, random) {
            break word;
        }
    };
    let copied = if random.one_in(2) { Some(random.pick(b"BCD")) } else { None };
    match style {
        Style::Short => word,
        Style::Any => {
            let most = random.between(word.len(), MOST_SIGNS);
            lengthened(word, most, copied, random)
        }
        Style::Long => lengthened(word, MOST_SIGNS, copied, random),
    }
}

/// A table of random words.
pub fn random_school(style: Style, random: &mut Random) -> School {
    School::of_words((0..LINES).map(|line| good_word(line, style, random)).collect()).expect("a table of good words")
}

/// A table in which every word with this letter names it as often as can be.
pub fn copying_school(letter: u8, random: &mut Random) -> School {
    let word = |line: usize, random: &mut Random| {
        let word = good_word(line, Style::Short, random);
        let most = random.between(MOST_SIGNS - 8, MOST_SIGNS);
        lengthened(word, most, Some(letter), random)
    };
    School::of_words((0..LINES).map(|line| word(line, random)).collect()).expect("a table of good words")
}

/// Our own table by the frames of `lift`: in states 5 to 9 what a step makes of T with D, in states 1 to 4 what it
/// makes of T, with D joined on.
pub fn ours() -> School {
    let word = |line: usize| {
        let (state, input) = state_and_input(line);
        let (tree, position) =
            tree_of(with_d(T_WORDS[state - 1][0], input).as_bytes(), &[1, 2, 3, 4].map(|leaf| vec![leaf]));
        let lifted = lift(&tree, position, 1).expect("a lift that is done");
        lifted.tree.iter().map(|&number| sign_of(number)).collect()
    };
    School::of_words((0..LINES).map(word).collect()).expect("our own table")
}

/// The sign of an entry in which the groups 1 to 4 are A, B, C and D.
pub fn sign_of(number: u16) -> u8 {
    match number {
        UNION => b'+',
        DIFFERENCE => b'-',
        group => b'A' + group as u8 - 1,
    }
}
