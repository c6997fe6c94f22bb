//! Sheets whose keys were worked out by hand from 01.

use crate::tables::file::TableFile;
use reference::key_pair::lines_before_code;
use reference::tree::LAST_GROUP;

/// What a sheet's key must be.
#[derive(Clone)]
pub enum Expected {
    /// These bytes.
    Key(Vec<u8>),
    /// Gathered by a tree that 01 leaves free.
    Gathered,
    /// What the reference says.
    Reference,
}

#[derive(Clone)]
pub struct Case {
    pub name: String,
    /// The school's table, if the key program is given one.
    pub table: TableFile,
    pub bytes: Vec<u8>,
    pub expected: Expected,
    /// What its key for the older player must be.
    pub older: Expected,
}

impl Case {
    /// A sheet without a table. A key without code is the older player's too.
    pub fn new(name: String, bytes: Vec<u8>, expected: Expected) -> Case {
        let older = match &expected {
            Expected::Key(key) if lines_before_code(key) == key => expected.clone(),
            _ => Expected::Reference,
        };
        Case { name, table: TableFile::NotNamed, bytes, expected, older }
    }
}

/// Lines end in `/` and fields are parted by a space, as 01 writes its example; `_` is a space.
pub fn text(line: &str) -> Vec<u8> {
    line.bytes()
        .map(|byte| match byte {
            b'/' => b'\n',
            b' ' => b'\t',
            b'_' => b' ',
            other => other,
        })
        .collect()
}

const REFUSED: [(&str, &str); 72] = [
    // The end, and what comes after it.
    ("", "NO 10 1/"),
    ("G 1/", "NO 10 2/"),
    ("G 1/G 2/", "NO 10 3/"),
    ("G 1/L 0 1/", "NO 10 3/"),
    ("G 1/K 1/", "NO 10 3/"),
    ("G 1/E", "NO 2 2/"),
    ("G 1", "NO 2 1/"),
    ("G 1/E/G 1", "NO 2 3/"),
    ("G 1/E/E", "NO 2 3/"),
    ("G 1/E/ ", "NO 2 3/"),
    ("G 1/E/G 1/", "NO 3 3/"),
    ("G 1/E/E/", "NO 3 3/"),
    ("G 1/E/I/", "NO 3 3/"),
    ("G 1/E/K 2/", "NO 3 3/"),
    ("G 1/E/X/", "NO 2 3/"),
    ("G 1/E//", "NO 2 3/"),
    // Order of kinds.
    ("G 1/L 0 1/G 1/E/", "NO 3 3/"),
    ("G 1/L 0 1/U/E/", "NO 3 3/"),
    ("G 1/L 0 1/I/E/", "NO 3 3/"),
    ("G 1/K 1/I/", "NO 3 3/"),
    ("G 1/K 1/L 0 1/E/", "NO 3 3/"),
    ("G 1/K 1/D/", "NO 3 3/"),
    ("G 1/L 0 1/G 0/", "NO 2 3/"),
    // Tree lines that do not make one tree.
    ("E/", "NO 7 1/"),
    ("L 0 1/E/", "NO 7 1/"),
    ("K 1/E/", "NO 7 1/"),
    ("G 1/G 2/E/", "NO 7 3/"),
    ("G 1/G 2/L 0 1/E/", "NO 7 3/"),
    ("G 1/G 2/K 3/E/", "NO 7 3/"),
    ("G 1/G 2/X/", "NO 2 3/"),
    ("E/X/", "NO 7 1/"),
    // Operators without operands.
    ("U/", "NO 4 1/"),
    ("D/E/", "NO 4 1/"),
    ("G 1/D/E/", "NO 4 2/"),
    ("G 1/G 2/U/U/E/", "NO 4 4/"),
    ("I/", "NO 4 1/"),
    ("I/E/", "NO 4 1/"),
    ("G 1/I/E/", "NO 4 2/"),
    ("G 1/G 2/I/I/E/", "NO 4 4/"),
    ("G 1/G 2/U/I/E/", "NO 4 4/"),
    // Groups and marks.
    ("G 1/G 2/G 3/G 4/G 5/G 6/G 7/G 8/G 9/", "NO 6 9/"),
    ("G 1/K 2/E/", "NO 8 2/"),
    ("G 1/K 2/K 2/E/", "NO 8 2/"),
    ("G 1/K 1/K 1/E/", "NO 9 3/"),
    ("G 1/G 2/U/K 2/K 1/K 2/E/", "NO 9 6/"),
    // Fields.
    ("G 0/E/", "NO 2 1/"),
    ("G 01/E/", "NO 2 1/"),
    ("G 65537/E/", "NO 2 1/"),
    ("G 18446744073709551617/E/", "NO 2 1/"),
    ("G _1/E/", "NO 2 1/"),
    ("G 1_/E/", "NO 2 1/"),
    ("G_1/E/", "NO 2 1/"),
    ("G 1\r/E/", "NO 2 1/"),
    ("G /E/", "NO 2 1/"),
    ("G/E/", "NO 2 1/"),
    ("G 1 /E/", "NO 2 1/"),
    (" G 1/E/", "NO 2 1/"),
    ("g 1/E/", "NO 2 1/"),
    ("G +1/E/", "NO 2 1/"),
    ("G 1\0/E/", "NO 2 1/"),
    ("G 1/K 0/E/", "NO 2 2/"),
    ("G 1/L 8191 1/E/", "NO 2 2/"),
    ("G 1/L 0 100/E/", "NO 2 2/"),
    ("G 1/L 0 0/E/", "NO 2 2/"),
    ("G 1/L 0/E/", "NO 2 2/"),
    ("G 1/L 0 1 1/E/", "NO 2 2/"),
    ("G 1/L 00 1/E/", "NO 2 2/"),
    ("G 1/E /", "NO 2 2/"),
    ("G 1/G 2/I 1/E/", "NO 2 3/"),
    ("G 1/G 2/I /E/", "NO 2 3/"),
    ("G 1/G 2/i/E/", "NO 2 3/"),
    ("G 1/G 2/I", "NO 2 3/"),
];

/// 01's example and its samples, (iv) and (vi) as 02 has them; where no key stands the gathered tree is free.
const SAMPLES: [(&str, &str); 13] = [
    (
        "G 1/G 2/D/G 3/D/G 4/U/G 5/D/L 0 2/K 2/K 3/E/",
        "LIFT 0 0 2/HELD 0 1 3/LOAD 0 2/LOAD 1 3/ADD 0 0 1/LOAD 1 5/ADD 0 0 1/LOAD 1 1/CUT 0 1 0/LOAD 1 4/LOAD 2 5/CUT 1 1 2/ADD 0 0 1/",
    ),
    ("G 1/G 2/D/L 0 1/E/", "LIFT 14 0 0/LOAD 0 1/LOAD 1 2/CUT 0 0 1/"),
    ("G 1/G 2/D/G 3/U/L 0 1/E/", "LIFT 15 0 0/LOAD 0 1/LOAD 1 2/CUT 0 0 1/LOAD 1 3/ADD 0 0 1/"),
    (
        "G 5/G 4/G 3/G 2/G 1/D/D/D/D/L 4 1/E/",
        "LIFT 0 9 1/LOAD 0 4/LOAD 1 3/CUT 0 0 1/LOAD 1 4/LOAD 2 2/CUT 1 1 2/LOAD 2 4/CUT 1 2 1/LOAD 2 1/CUT 1 1 2/ADD 0 0 1/LOAD 1 5/CUT 0 1 0/",
    ),
    (
        "G 3/G 2/G 1/D/D/G 4/D/L 2 1/E/",
        "LIFT 0 4 1/LOAD 0 3/LOAD 1 4/CUT 0 0 1/LOAD 1 2/LOAD 2 1/CUT 1 1 2/CUT 0 0 1/",
    ),
    (
        "G 3/G 2/G 1/D/D/G 4/U/G 5/U/L 2 1/E/",
        "LIFT 0 6 1/LOAD 0 3/LOAD 1 4/ADD 0 0 1/LOAD 1 2/LOAD 2 4/CUT 1 1 2/LOAD 2 1/CUT 1 1 2/CUT 0 0 1/LOAD 1 5/ADD 0 0 1/",
    ),
    ("G 1/G 3/D/G 2/G 4/D/U/K 1/K 2/E/", "HELD 19/"),
    ("G 1/G 3/D/G 2/G 3/D/U/K 1/K 2/E/", ""),
    ("G 1/G 2/D/G 2/G 1/D/U/K 1/E/", "HELD 19/"),
    ("G 1/G 1/G 2/D/D/K 1/E/", ""),
    // The least and the greatest numbers.
    ("G 1/K 1/E/", "HELD 0 1 1/LOAD 0 1/"),
    ("G 1/L 0 99/E/", "LIFT 14 0 0/LOAD 0 1/"),
    ("G 1/L 8190 1/L 1 1/E/", "LIFT 13 8190 0/LIFT 13 1 0/LOAD 0 1/"),
];

/// Sheets with `I` (02, request 6); where no key stands the gathered tree is free.
const INTERSECTIONS: [(&str, &str); 44] = [
    // Its code, in each operand place.
    ("G 1/G 2/I/E/", "LOAD 0 1/LOAD 1 2/BOTH 0 0 1/"),
    ("G 2/G 1/I/E/", "LOAD 0 2/LOAD 1 1/BOTH 0 0 1/"),
    ("G 1/G 2/G 3/I/I/E/", "LOAD 0 2/LOAD 1 3/BOTH 0 0 1/LOAD 1 1/BOTH 0 1 0/"),
    ("G 1/G 2/I/G 3/I/E/", "LOAD 0 1/LOAD 1 2/BOTH 0 0 1/LOAD 1 3/BOTH 0 0 1/"),
    ("G 1/G 2/U/G 3/G 4/D/I/E/", "LOAD 0 1/LOAD 1 2/ADD 0 0 1/LOAD 1 3/LOAD 2 4/CUT 1 1 2/BOTH 0 0 1/"),
    ("G 1/G 2/I/G 3/G 4/I/D/E/", "LOAD 0 1/LOAD 1 2/BOTH 0 0 1/LOAD 1 3/LOAD 2 4/BOTH 1 1 2/CUT 0 0 1/"),
    (
        "G 1/G 2/U/G 3/G 4/I/G 5/I/D/E/",
        "LOAD 0 1/LOAD 1 2/ADD 0 0 1/LOAD 1 3/LOAD 2 4/BOTH 1 1 2/LOAD 2 5/BOTH 1 1 2/CUT 0 0 1/",
    ),
    ("G 1/G 2/I/G 3/D/E/", "LOAD 0 1/LOAD 1 2/BOTH 0 0 1/LOAD 1 3/CUT 0 0 1/"),
    ("G 1/G 2/G 3/I/D/E/", "LOAD 0 2/LOAD 1 3/BOTH 0 0 1/LOAD 1 1/CUT 0 1 0/"),
    ("G 1/G 2/I/G 3/U/E/", "LOAD 0 1/LOAD 1 2/BOTH 0 0 1/LOAD 1 3/ADD 0 0 1/"),
    ("G 1/G 2/G 3/I/U/E/", "LOAD 0 2/LOAD 1 3/BOTH 0 0 1/LOAD 1 1/ADD 0 1 0/"),
    // Marks under it: gathered already, gathered by a tree that is free, not to be gathered.
    ("G 1/G 2/I/K 1/E/", "HELD 0 1 1/LOAD 0 1/LOAD 1 2/BOTH 0 0 1/"),
    ("G 1/G 2/I/K 2/E/", "HELD 0 2 1/LOAD 0 1/LOAD 1 2/BOTH 0 0 1/"),
    ("G 1/G 2/I/K 2/K 1/E/", "HELD 0 1 3/LOAD 0 1/LOAD 1 2/BOTH 0 0 1/"),
    ("G 1/G 2/I/G 3/U/K 1/K 2/E/", "HELD 0 1 3/LOAD 0 1/LOAD 1 2/BOTH 0 0 1/LOAD 1 3/ADD 0 0 1/"),
    ("G 1/G 2/U/G 3/I/K 1/K 2/E/", "HELD 0 1 3/LOAD 0 1/LOAD 1 2/ADD 0 0 1/LOAD 1 3/BOTH 0 0 1/"),
    ("G 3/G 1/G 2/D/I/K 1/K 2/E/", "HELD 0 1 3/LOAD 0 1/LOAD 1 2/CUT 0 0 1/LOAD 1 3/BOTH 0 1 0/"),
    ("G 1/G 2/I/G 3/I/K 1/K 3/E/", ""),
    ("G 1/G 3/I/G 2/G 3/I/U/K 1/K 2/E/", ""),
    ("G 1/G 2/I/G 1/G 3/I/U/K 1/E/", ""),
    ("G 1/G 2/I/G 1/G 3/D/U/K 1/E/", ""),
    ("G 1/G 2/I/G 1/G 2/U/D/K 1/E/", ""),
    ("G 1/G 3/I/G 2/G 4/I/U/K 1/K 2/E/", "HELD 19/"),
    ("G 1/G 2/U/G 1/G 2/I/D/K 1/E/", "HELD 19/"),
    ("G 1/G 2/I/G 3/G 2/D/U/K 1/K 3/E/", "HELD 19/"),
    // The parent is an I; 14 comes first.
    ("G 1/G 2/I/L 0 1/E/", "LIFT 14 0 0/LOAD 0 1/LOAD 1 2/BOTH 0 0 1/"),
    (
        "G 1/G 2/I/G 3/U/L 0 1/L 1 1/L 0 2/E/",
        "LIFT 27 0 0/LIFT 27 1 0/LIFT 14 0 0/LOAD 0 1/LOAD 1 2/BOTH 0 0 1/LOAD 1 3/ADD 0 0 1/",
    ),
    ("G 1/G 2/I/G 3/U/L 0 1/K 1/K 2/E/", "LIFT 27 0 0/HELD 0 1 3/LOAD 0 1/LOAD 1 2/BOTH 0 0 1/LOAD 1 3/ADD 0 0 1/"),
    // The grandparent is an I: 27 and not 15, also at level 2.
    (
        "G 1/G 2/D/G 3/I/L 0 1/L 1 1/L 0 2/E/",
        "LIFT 27 0 0/LIFT 27 1 0/LIFT 14 0 0/LOAD 0 1/LOAD 1 2/CUT 0 0 1/LOAD 1 3/BOTH 0 0 1/",
    ),
    ("G 3/G 1/G 2/U/I/L 1 1/L 2 1/E/", "LIFT 27 1 0/LIFT 27 2 0/LOAD 0 1/LOAD 1 2/ADD 0 0 1/LOAD 1 3/BOTH 0 1 0/"),
    // States 1 to 4 do not need the node above T: done under an I, and the next step is refused.
    (
        "G 1/G 2/U/G 3/U/G 4/I/L 0 1/L 0 1/E/",
        "LIFT 0 0 1/LIFT 27 0 0/LOAD 0 2/LOAD 1 3/ADD 0 0 1/LOAD 1 1/ADD 0 1 0/LOAD 1 4/BOTH 0 0 1/",
    ),
    (
        "G 4/G 3/G 1/G 2/U/D/I/L 2 1/L 3 1/E/",
        "LIFT 0 4 1/LIFT 27 3 0/LOAD 0 3/LOAD 1 2/CUT 0 0 1/LOAD 1 1/CUT 0 0 1/LOAD 1 4/BOTH 0 1 0/",
    ),
    (
        "G 1/G 2/D/G 3/D/G 4/I/L 0 1/L 0 1/E/",
        "LIFT 0 0 1/LIFT 27 0 0/LOAD 0 2/LOAD 1 3/ADD 0 0 1/LOAD 1 1/CUT 0 1 0/LOAD 1 4/BOTH 0 0 1/",
    ),
    (
        "G 2/G 1/D/G 3/D/G 4/I/L 1 1/E/",
        "LIFT 0 3 1/LOAD 0 2/LOAD 1 3/CUT 0 0 1/LOAD 1 1/CUT 0 0 1/LOAD 1 4/BOTH 0 0 1/",
    ),
    (
        "G 1/G 2/D/G 3/D/G 4/I/L 0 2/L 0 3/E/",
        "LIFT 27 0 0/LIFT 14 0 0/LOAD 0 1/LOAD 1 2/CUT 0 0 1/LOAD 1 3/CUT 0 0 1/LOAD 1 4/BOTH 0 0 1/",
    ),
    (
        "G 1/G 2/D/G 3/D/G 4/I/L 0 1/K 2/K 3/E/",
        "LIFT 0 0 1/HELD 0 1 3/LOAD 0 2/LOAD 1 3/ADD 0 0 1/LOAD 1 1/CUT 0 1 0/LOAD 1 4/BOTH 0 0 1/",
    ),
    // States 5 to 9 need it.
    (
        "G 1/G 2/U/G 3/D/G 4/I/L 0 1/L 1 1/E/",
        "LIFT 27 0 0/LIFT 27 1 0/LOAD 0 1/LOAD 1 2/ADD 0 0 1/LOAD 1 3/CUT 0 0 1/LOAD 1 4/BOTH 0 0 1/",
    ),
    (
        "G 4/G 1/G 2/U/G 3/D/I/L 1 1/E/",
        "LIFT 27 1 0/LOAD 0 1/LOAD 1 2/ADD 0 0 1/LOAD 1 3/CUT 0 0 1/LOAD 1 4/BOTH 0 1 0/",
    ),
    (
        "G 1/G 2/D/G 3/U/G 4/I/L 0 1/L 1 1/E/",
        "LIFT 27 0 0/LIFT 27 1 0/LOAD 0 1/LOAD 1 2/CUT 0 0 1/LOAD 1 3/ADD 0 0 1/LOAD 1 4/BOTH 0 0 1/",
    ),
    (
        "G 3/G 2/G 1/D/D/G 4/I/L 1 1/L 2 1/E/",
        "LIFT 27 1 0/LIFT 27 2 0/LOAD 0 2/LOAD 1 1/CUT 0 0 1/LOAD 1 3/CUT 0 1 0/LOAD 1 4/BOTH 0 0 1/",
    ),
    // An I above D, in A, in B.
    (
        "G 1/G 2/U/G 3/D/G 4/U/G 5/I/L 0 1/E/",
        "LIFT 0 5 1/LOAD 0 2/LOAD 1 3/CUT 0 0 1/LOAD 1 4/ADD 0 1 0/LOAD 1 1/LOAD 2 3/CUT 1 1 2/ADD 0 0 1/LOAD 1 5/BOTH 0 0 1/",
    ),
    (
        "G 1/G 2/U/G 3/D/G 4/U/G 5/I/L 0 2/E/",
        "LIFT 27 0 0/LOAD 0 1/LOAD 1 2/ADD 0 0 1/LOAD 1 3/CUT 0 0 1/LOAD 1 4/ADD 0 0 1/LOAD 1 5/BOTH 0 0 1/",
    ),
    (
        "G 1/G 5/I/G 2/D/G 3/D/L 2 1/E/",
        "LIFT 0 2 1/LOAD 0 1/LOAD 1 5/BOTH 0 0 1/LOAD 1 2/LOAD 2 3/ADD 1 1 2/CUT 0 0 1/",
    ),
    (
        "G 1/G 2/G 3/I/D/G 4/D/L 0 1/L 1 1/E/",
        "LIFT 0 0 1/LIFT 27 1 0/LOAD 0 2/LOAD 1 3/BOTH 0 0 1/LOAD 1 4/ADD 0 0 1/LOAD 1 1/CUT 0 1 0/",
    ),
];

/// The groups that take the places of 1 to 5 in the samples.
const LARGE_GROUPS: [u16; 5] = [LAST_GROUP, 10_000, LAST_GROUP - 1, 9999, 32_768];

/// Lines of a sheet or a key with large groups in place of 1 to 5.
pub fn with_large_groups(lines: &str) -> String {
    let renamed = |line: &str| {
        let mut fields: Vec<String> = line.split(' ').map(str::to_string).collect();
        let place = match fields[0].as_str() {
            "G" | "K" => 1,
            "LOAD" => 2,
            _ => return line.to_string(),
        };
        let group: usize = fields[place].parse().expect("a group");
        fields[place] = LARGE_GROUPS[group - 1].to_string();
        fields.join(" ")
    };
    lines.split('/').map(renamed).collect::<Vec<String>>().join("/")
}

fn case(sheet: &str, key: &str) -> Case {
    let expected = if key.is_empty() { Expected::Gathered } else { Expected::Key(text(key)) };
    Case::new(format!("case {sheet:?}"), text(sheet), expected)
}

pub fn cases() -> Vec<Case> {
    let accepted = || SAMPLES.iter().chain(&INTERSECTIONS);
    let mut cases: Vec<Case> = REFUSED.iter().chain(accepted()).map(|(sheet, key)| case(sheet, key)).collect();
    cases.extend(accepted().map(|(sheet, key)| case(&with_large_groups(sheet), &with_large_groups(key))));
    for byte in [b'/', 127, 128, 255] {
        let bytes = [b"G\t1\n", &[byte][..], b"\nE\n"].concat();
        cases.push(Case::new(format!("case of byte {byte}"), bytes, Expected::Key(text("NO 2 2/"))));
    }
    cases
}
