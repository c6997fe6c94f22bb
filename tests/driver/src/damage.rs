//! Damage to a sheet's bytes or a table's.

use reference::random::Random;
use reference::shape::edge_number;

fn lines(bytes: &[u8]) -> Vec<Vec<u8>> {
    bytes.split_inclusive(|&byte| byte == b'\n').map(<[u8]>::to_vec).collect()
}

fn flip_bit(mut bytes: Vec<u8>, random: &mut Random) -> Vec<u8> {
    let at = random.below(bytes.len());
    bytes[at] ^= 1 << random.below(8);
    bytes
}

const SHEET_BYTES: &[u8] = b"GUDILKE\t\n0123456789 \r\0\xff";
const TABLE_BYTES: &[u8] = b"ABCDABCD++--abcd\t\n0123456789 \r\0\xff";

fn replace_byte(mut bytes: Vec<u8>, random: &mut Random) -> Vec<u8> {
    let at = random.below(bytes.len());
    bytes[at] = random.pick(SHEET_BYTES);
    bytes
}

fn replace_table_byte(mut bytes: Vec<u8>, random: &mut Random) -> Vec<u8> {
    let at = random.below(bytes.len());
    bytes[at] = random.pick(TABLE_BYTES);
    bytes
}

fn insert_table_byte(mut bytes: Vec<u8>, random: &mut Random) -> Vec<u8> {
    let at = random.below(bytes.len() + 1);
    bytes.insert(at, random.pick(TABLE_BYTES));
    bytes
}

fn insert_byte(mut bytes: Vec<u8>, random: &mut Random) -> Vec<u8> {
    let at = random.below(bytes.len() + 1);
    bytes.insert(at, random.pick(SHEET_BYTES));
    bytes
}

fn remove_byte(mut bytes: Vec<u8>, random: &mut Random) -> Vec<u8> {
    let at = random.below(bytes.len());
    bytes.remove(at);
    bytes
}

fn truncate(mut bytes: Vec<u8>, random: &mut Random) -> Vec<u8> {
    bytes.truncate(random.below(bytes.len()));
    bytes
}

fn drop_line(bytes: Vec<u8>, random: &mut Random) -> Vec<u8> {
    let mut lines = lines(&bytes);
    lines.remove(random.below(lines.len()));
    lines.concat()
}

fn repeat_line(bytes: Vec<u8>, random: &mut Random) -> Vec<u8> {
    let mut lines = lines(&bytes);
    let line = lines[random.below(lines.len())].clone();
    lines.insert(random.below(lines.len() + 1), line);
    lines.concat()
}

fn swap_lines(bytes: Vec<u8>, random: &mut Random) -> Vec<u8> {
    let mut lines = lines(&bytes);
    let (first, second) = (random.below(lines.len()), random.below(lines.len()));
    lines.swap(first, second);
    lines.concat()
}

/// A line of good form, or nearly so, anywhere.
fn insert_line(bytes: Vec<u8>, random: &mut Random) -> Vec<u8> {
    let mut lines = lines(&bytes);
    let small = random.pick(&[0, 1, 2, 9, 99, 100, 8190, 8191]);
    let number = if random.one_in(2) { small } else { edge_number(random) };
    let line = match random.below(6) {
        0 => format!("G\t{number}\n"),
        1 => format!("K\t{number}\n"),
        2 => format!("L\t{number}\t{}\n", random.pick(&[0, 1, 99, 100])),
        3 => "E\n".to_string(),
        4 => random.pick(&["U\n", "D\n", "I\n"]).to_string(),
        _ => random.pick(&["\n", "G\n", "K\t\n", "L\t1\n", "E\t\n", "U\t1\n", "I\t1\n", "G\t01\n"]).to_string(),
    };
    lines.insert(random.below(lines.len() + 1), line.into_bytes());
    lines.concat()
}

/// Another number in a line of a group or a mark.
fn change_group(bytes: Vec<u8>, random: &mut Random) -> Vec<u8> {
    let mut lines = lines(&bytes);
    let at = random.below(lines.len());
    if lines[at].starts_with(b"G\t") || lines[at].starts_with(b"K\t") {
        lines[at].truncate(2);
        lines[at].extend(format!("{}\n", edge_number(random)).into_bytes());
    }
    lines.concat()
}

type Damage = fn(Vec<u8>, &mut Random) -> Vec<u8>;

const DAMAGES: [Damage; 10] = [
    flip_bit,
    replace_byte,
    insert_byte,
    remove_byte,
    truncate,
    drop_line,
    repeat_line,
    swap_lines,
    insert_line,
    change_group,
];

/// Damage to a table's bytes: mostly to one byte.
const TABLE_DAMAGES: [Damage; 10] = [
    flip_bit,
    flip_bit,
    replace_table_byte,
    replace_table_byte,
    insert_table_byte,
    remove_byte,
    truncate,
    drop_line,
    repeat_line,
    swap_lines,
];

fn damaged_by(damages: &[Damage], mut bytes: Vec<u8>, random: &mut Random) -> Vec<u8> {
    for _ in 0..random.pick(&[1, 1, 1, 2, 3]) {
        if !bytes.is_empty() {
            bytes = random.pick(damages)(bytes, random);
        }
    }
    bytes
}

/// One to three kinds of damage to a sheet.
pub fn damaged(bytes: Vec<u8>, random: &mut Random) -> Vec<u8> {
    damaged_by(&DAMAGES, bytes, random)
}

/// One to three kinds of damage to a table.
pub fn damaged_table(bytes: Vec<u8>, random: &mut Random) -> Vec<u8> {
    damaged_by(&TABLE_DAMAGES, bytes, random)
}
