//! Tables whose answer is known by how they are made: whole ones, one fault at each place, two faults, and the limits.

use super::faults::FORM_FAULTS;
use super::file::TableFile;
use crate::cases::{text, Case, Expected};
use reference::bad_words::{wrong_under, FILLINGS, WORD_FAULTS};
use reference::random::Random;
use reference::refusal::{TABLE_FORM, TABLE_WORD};
use reference::table::{line_of, LINES, MOST_SIGNS};
use reference::words::{good_word, random_school, Style};

/// A lift in state 6 under input b, marks that cannot be gathered, and three sheets that reading refuses.
const SHEETS: [&str; 5] =
    ["G 1/G 2/D/G 3/U/G 4/D/L 0 1/E/", "G 1/G 3/D/G 2/G 4/D/U/K 1/K 2/E/", "", "G 0/E/", "G 1/U/E/"];

/// The lines of a table, which may have faults.
struct Lines(Vec<Vec<u8>>);

impl Lines {
    fn good(style: Style, random: &mut Random) -> Lines {
        Lines((0..LINES).map(|line| line_of(line, &good_word(line, style, random))).collect())
    }

    fn with(mut self, line: usize, bytes: Vec<u8>) -> Lines {
        self.0[line] = bytes;
        self
    }

    fn bytes(&self) -> Vec<u8> {
        self.0.concat()
    }
}

/// A table refused with this number and line (from 1), beside one of the sheets.
fn refused(name: String, table: TableFile, number: u16, line: usize, random: &mut Random) -> Case {
    let key = Expected::Key(text(&format!("NO {number} {line}/")));
    Case { table, ..Case::new(format!("table: {name}"), text(random.pick(&SHEETS)), key) }
}

fn refused_lines(name: String, lines: Lines, number: u16, line: usize, random: &mut Random) -> Case {
    refused(name, TableFile::Bytes(lines.bytes()), number, line, random)
}

/// A line's bytes with one of the faults: the fault's name and number beside it.
fn faulty_line(line: usize, fault: usize, word: &[u8], random: &mut Random) -> Option<(String, u16, Vec<u8>)> {
    let (form, words) = (FORM_FAULTS.len(), WORD_FAULTS.len());
    if fault < form {
        let (name, make) = FORM_FAULTS[fault];
        return Some((name.to_string(), TABLE_FORM, make(line, word, random)?));
    }
    let (name, bad) = match fault - form {
        fault if fault < words => (WORD_FAULTS[fault].0.to_string(), WORD_FAULTS[fault].1(line, word, random)?),
        fault => {
            let filling = fault - words + FILLINGS.start();
            (format!("otherwise under filling {filling}"), wrong_under(filling, line, random)?)
        }
    };
    (bad.len() <= MOST_SIGNS).then(|| (name, TABLE_WORD, line_of(line, &bad)))
}

fn fault_count() -> usize {
    FORM_FAULTS.len() + WORD_FAULTS.len() + FILLINGS.count()
}

/// The names of all faults of one line, and the least number of places at which each is tried.
pub fn least_faults() -> Vec<(String, usize)> {
    // A at level 1 can select rightly in six lines, and not every line has a word that is wrong under one filling only.
    let least = |name: &str| if name == "A at level 1" { 6 } else { LINES };
    let faults = FORM_FAULTS.iter().map(|fault| fault.0).chain(WORD_FAULTS.iter().map(|fault| fault.0));
    let faults = faults.map(|name| (category(name), least(name)));
    faults.chain(FILLINGS.map(|filling| (category(&format!("otherwise under filling {filling}")), 12))).collect()
}

/// The category of a fixed case of this fault.
pub fn category(fault: &str) -> String {
    format!("one fault in a table: {fault}")
}

/// One fault at each place. The name of the fault stands before the case's own.
fn one_fault(random: &mut Random) -> Vec<(String, Case)> {
    let mut cases = Vec::new();
    for line in 0..LINES {
        for fault in 0..fault_count() {
            let style = if random.one_in(4) { Style::Any } else { Style::Short };
            let word = good_word(line, Style::Short, random);
            let Some((name, number, bytes)) = faulty_line(line, fault, &word, random) else { continue };
            let lines = Lines::good(style, random).with(line, bytes);
            let title = format!("line {}, {name}", line + 1);
            cases.push((category(&name), refused_lines(title, lines, number, line + 1, random)));
        }
    }
    cases
}

/// Two faults on different lines: the earlier line's is given.
fn two_lines(random: &mut Random) -> Option<Case> {
    let mut lines = Lines::good(Style::Short, random);
    let mut first: Option<(usize, u16, String)> = None;
    for _ in 0..2 {
        let (line, fault) = (random.below(LINES), random.below(fault_count()));
        let word = good_word(line, Style::Short, random);
        let (name, number, bytes) = faulty_line(line, fault, &word, random)?;
        lines = lines.with(line, bytes);
        if first.as_ref().is_none_or(|(earlier, ..)| line <= *earlier) {
            first = Some((line, number, name));
        }
    }
    let (line, number, name) = first?;
    Some(refused_lines(format!("two lines, first {name}"), lines, number, line + 1, random))
}

/// A fault of form and one of the word on one line: 28.
fn one_line(line: usize, random: &mut Random) -> Option<Case> {
    let good = good_word(line, Style::Short, random);
    let (word_fault, form_fault) = (random.pick(&WORD_FAULTS), random.pick(&FORM_FAULTS));
    let bad = word_fault.1(line, &good, random)?;
    let bytes = form_fault.1(line, &bad, random)?;
    let lines = Lines::good(Style::Short, random).with(line, bytes);
    let name = format!("line {}, {} and {}", line + 1, word_fault.0, form_fault.0);
    Some(refused_lines(name, lines, TABLE_FORM, line + 1, random))
}

/// Lines left out, twice there, exchanged or added, and tables that end early.
fn order(random: &mut Random) -> Vec<Case> {
    let mut cases = Vec::new();
    for line in 0..LINES {
        let lines = || Lines::good(Style::Short, &mut Random::new(line as u64));
        let mut add = |name: &str, at: usize, change: &dyn Fn(&mut Vec<Vec<u8>>)| {
            let mut changed = lines();
            change(&mut changed.0);
            cases.push(refused_lines(format!("line {}, {name}", line + 1), changed, TABLE_FORM, at, random));
        };
        add("table ends before it", line + 1, &|lines| lines.truncate(line));
        add("table ends within it", line + 1, &|lines| {
            lines.truncate(line + 1);
            lines[line].truncate(4);
        });
        add("left out", line + 1, &|lines| drop(lines.remove(line)));
        add("twice", line + 2, &|lines| lines.insert(line, lines[line].clone()));
        add("an empty line before it", line + 1, &|lines| lines.insert(line, b"\n".to_vec()));
        if line + 1 < LINES {
            add("exchanged with the next", line + 1, &|lines| lines.swap(line, line + 1));
            add("exchanged with the last", line + 1, &|lines| lines.swap(line, LINES - 1));
        }
    }
    cases
}

/// A whole table, and what comes after it.
fn ends(random: &mut Random) -> Vec<Case> {
    let good = Lines::good(Style::Any, random).bytes();
    let ninth = line_of(LINES - 1, b"DC-DDB--A-+");
    let added: [&[u8]; 9] = [b"\n", b"1", b"\0", b"\r\n", b"E\n", &ninth, b"10\ta\tABC++D+\n", &good, &[b'x'; 70_000]];
    let mut cases: Vec<Case> = Vec::new();
    for bytes in added {
        let name = format!("{} bytes after the last line", bytes.len());
        cases.push(refused(name, TableFile::Bytes([&good, bytes].concat()), TABLE_FORM, LINES + 1, random));
    }
    let whole = [
        ("CR LF in every line", String::from_utf8_lossy(&good).replace('\n', "\r\n").into_bytes()),
        ("a mark of byte order", [b"\xef\xbb\xbf", &good[..]].concat()),
        ("an empty line first", [b"\n", &good[..]].concat()),
        ("one line of 70,000 signs", [b"1\ta\t", &[b'B'; 70_000][..], b"\n"].concat()),
        ("70,000 bytes without LF", vec![b'1'; 70_000]),
        ("one LF", b"\n".to_vec()),
        ("one byte", b"1".to_vec()),
        ("no bytes", Vec::new()),
    ];
    for (name, bytes) in whole {
        cases.push(refused(name.to_string(), TableFile::Bytes(bytes), TABLE_FORM, 1, random));
    }
    cases
}

/// A table cut off after each of its bytes.
fn cut(random: &mut Random) -> Vec<Case> {
    let good = Lines::good(Style::Short, random).bytes();
    let case = |count: usize, random: &mut Random| {
        let line = good[..count].iter().filter(|&&byte| byte == b'\n').count() + 1;
        refused(format!("cut after {count} bytes"), TableFile::Bytes(good[..count].to_vec()), TABLE_FORM, line, random)
    };
    (0..good.len()).map(|count| case(count, random)).collect()
}

/// Files that cannot be opened.
fn unopened(random: &mut Random) -> Vec<Case> {
    let files = [
        ("missing", TableFile::Missing),
        ("a name of no bytes", TableFile::EmptyName),
        ("a folder", TableFile::Folder),
        ("a name of 100,000 bytes", TableFile::LongName),
    ];
    files.into_iter().map(|(name, file)| refused(name.to_string(), file, TABLE_FORM, 1, random)).collect()
}

/// Accepted tables of the longest words, of the shortest and of any, with sheets that reading accepts and refuses.
fn accepted(random: &mut Random) -> Vec<Case> {
    let mut cases = Vec::new();
    for style in [Style::Short, Style::Any, Style::Long] {
        for sheet in SHEETS {
            let table = TableFile::Bytes(random_school(style, random).print());
            let case = Case::new(format!("table: accepted, with {sheet:?}"), text(sheet), Expected::Reference);
            cases.push(Case { table, ..case });
        }
    }
    cases
}

/// The cases that belong to a category of `least_faults`, and all others.
pub fn cases() -> (Vec<(String, Case)>, Vec<Case>) {
    let mut random = Random::new(2007);
    let one_fault = one_fault(&mut random);
    let mut others: Vec<Case> = (0..400).filter_map(|_| two_lines(&mut random)).collect();
    others.extend((0..8 * LINES).filter_map(|number| one_line(number % LINES, &mut random)));
    for more in [order, ends, cut, unopened, accepted] {
        others.extend(more(&mut random));
    }
    (one_fault, others)
}
