//! Sheets whose keys for the older player (02, request 8) were worked out by hand.

use crate::cases::{text, with_large_groups, Case, Expected};

const KEYS: [(&str, &str); 31] = [
    // 01's example and its samples.
    (
        "G 1/G 2/D/G 3/D/G 4/U/G 5/D/L 0 2/K 2/K 3/E/",
        "LIFT 0 0 2/HELD 0 1 3/LOAD 0 2/LOAD 1 3/ADD 0 1/LOAD 1 5/ADD 0 1/LOAD 1 1/CUT 1 0/LOAD 0 4/LOAD 2 5/CUT 0 2/ADD 1 0/SHOW 1/",
    ),
    ("G 1/G 2/D/L 0 1/E/", "LIFT 14 0 0/LOAD 0 1/LOAD 1 2/CUT 0 1/SHOW 0/"),
    ("G 1/G 2/D/G 3/U/L 0 1/E/", "LIFT 15 0 0/LOAD 0 1/LOAD 1 2/CUT 0 1/LOAD 1 3/ADD 0 1/SHOW 0/"),
    (
        "G 5/G 4/G 3/G 2/G 1/D/D/D/D/L 4 1/E/",
        "LIFT 0 9 1/LOAD 0 4/LOAD 1 3/CUT 0 1/LOAD 1 4/LOAD 2 2/CUT 1 2/LOAD 2 4/CUT 2 1/LOAD 1 1/CUT 2 1/ADD 0 2/LOAD 1 5/CUT 1 0/SHOW 1/",
    ),
    (
        "G 3/G 2/G 1/D/D/G 4/D/L 2 1/E/",
        "LIFT 0 4 1/LOAD 0 3/LOAD 1 4/CUT 0 1/LOAD 1 2/LOAD 2 1/CUT 1 2/CUT 0 1/SHOW 0/",
    ),
    (
        "G 3/G 2/G 1/D/D/G 4/U/G 5/U/L 2 1/E/",
        "LIFT 0 6 1/LOAD 0 3/LOAD 1 4/ADD 0 1/LOAD 1 2/LOAD 2 4/CUT 1 2/LOAD 2 1/CUT 1 2/CUT 0 1/LOAD 1 5/ADD 0 1/SHOW 0/",
    ),
    ("G 1/L 0 99/E/", "LIFT 14 0 0/LOAD 0 1/SHOW 0/"),
    ("G 1/L 8190 1/L 1 1/E/", "LIFT 13 8190 0/LIFT 13 1 0/LOAD 0 1/SHOW 0/"),
    // One leaf, one operator.
    ("G 1/E/", "LOAD 0 1/SHOW 0/"),
    ("G 1/G 2/U/E/", "LOAD 0 1/LOAD 1 2/ADD 0 1/SHOW 0/"),
    ("G 1/G 2/D/E/", "LOAD 0 1/LOAD 1 2/CUT 0 1/SHOW 0/"),
    ("G 1/G 2/I/E/", "LOAD 0 1/LOAD 1 2/BOTH 0 1/SHOW 0/"),
    ("G 2/G 2/D/E/", "LOAD 0 2/LOAD 1 2/CUT 0 1/SHOW 0/"),
    // The right operand is heavier: the result is in the left one's register, and the register below it is free.
    ("G 3/G 1/G 2/U/D/E/", "LOAD 0 1/LOAD 1 2/ADD 0 1/LOAD 1 3/CUT 1 0/SHOW 1/"),
    ("G 4/G 3/G 1/G 2/U/D/I/E/", "LOAD 0 1/LOAD 1 2/ADD 0 1/LOAD 1 3/CUT 1 0/LOAD 0 4/BOTH 0 1/SHOW 0/"),
    ("G 3/G 1/G 2/U/D/G 4/U/E/", "LOAD 0 1/LOAD 1 2/ADD 0 1/LOAD 1 3/CUT 1 0/LOAD 0 4/ADD 1 0/SHOW 1/"),
    (
        "G 3/G 1/G 2/U/D/G 4/G 5/I/D/E/",
        "LOAD 0 1/LOAD 1 2/ADD 0 1/LOAD 1 3/CUT 1 0/LOAD 0 4/LOAD 2 5/BOTH 0 2/CUT 1 0/SHOW 1/",
    ),
    (
        "G 4/G 5/I/G 3/G 1/G 2/U/D/D/E/",
        "LOAD 0 4/LOAD 1 5/BOTH 0 1/LOAD 1 1/LOAD 2 2/ADD 1 2/LOAD 2 3/CUT 2 1/CUT 0 2/SHOW 0/",
    ),
    (
        "G 1/G 2/D/G 3/G 4/U/G 5/G 1/I/D/U/E/",
        "LOAD 0 3/LOAD 1 4/ADD 0 1/LOAD 1 5/LOAD 2 1/BOTH 1 2/CUT 0 1/LOAD 1 1/LOAD 2 2/CUT 1 2/ADD 1 0/SHOW 1/",
    ),
    (
        "G 3/G 4/U/G 5/G 1/I/D/G 1/G 2/D/U/E/",
        "LOAD 0 3/LOAD 1 4/ADD 0 1/LOAD 1 5/LOAD 2 1/BOTH 1 2/CUT 0 1/LOAD 1 1/LOAD 2 2/CUT 1 2/ADD 0 1/SHOW 0/",
    ),
    (
        "G 1/G 2/G 3/U/D/G 4/G 5/U/G 1/G 2/I/D/I/E/",
        "LOAD 0 4/LOAD 1 5/ADD 0 1/LOAD 1 1/LOAD 2 2/BOTH 1 2/CUT 0 1/LOAD 1 2/LOAD 2 3/ADD 1 2/LOAD 2 1/CUT 2 1/BOTH 2 0/SHOW 2/",
    ),
    // Chains to the left and to the right.
    ("G 1/G 2/D/G 3/D/G 4/D/E/", "LOAD 0 1/LOAD 1 2/CUT 0 1/LOAD 1 3/CUT 0 1/LOAD 1 4/CUT 0 1/SHOW 0/"),
    ("G 1/G 2/G 3/G 4/D/D/D/E/", "LOAD 0 3/LOAD 1 4/CUT 0 1/LOAD 1 2/CUT 1 0/LOAD 0 1/CUT 0 1/SHOW 0/"),
    (
        "G 5/G 1/G 2/G 3/G 4/D/D/D/D/E/",
        "LOAD 0 3/LOAD 1 4/CUT 0 1/LOAD 1 2/CUT 1 0/LOAD 0 1/CUT 0 1/LOAD 1 5/CUT 1 0/SHOW 1/",
    ),
    // Marks: SHOW does not count.
    ("G 1/K 1/E/", "HELD 0 1 1/LOAD 0 1/SHOW 0/"),
    ("G 1/G 2/D/K 2/E/", "HELD 0 2 1/LOAD 0 1/LOAD 1 2/CUT 0 1/SHOW 0/"),
    ("G 1/G 2/D/K 2/K 1/E/", "HELD 0 1 3/LOAD 0 1/LOAD 1 2/CUT 0 1/SHOW 0/"),
    ("G 3/G 1/G 2/D/I/K 1/K 2/E/", "HELD 0 1 3/LOAD 0 1/LOAD 1 2/CUT 0 1/LOAD 1 3/BOTH 1 0/SHOW 1/"),
    (
        "G 4/G 5/I/G 3/G 1/G 2/U/D/D/K 1/K 2/K 3/E/",
        "HELD 0 4 5/LOAD 0 4/LOAD 1 5/BOTH 0 1/LOAD 1 1/LOAD 2 2/ADD 1 2/LOAD 2 3/CUT 2 1/CUT 0 2/SHOW 0/",
    ),
    (
        "G 1/G 2/D/G 3/D/G 4/I/L 0 1/K 2/K 3/E/",
        "LIFT 0 0 1/HELD 0 1 3/LOAD 0 2/LOAD 1 3/ADD 0 1/LOAD 1 1/CUT 1 0/LOAD 0 4/BOTH 1 0/SHOW 1/",
    ),
    (
        "G 3/G 1/G 2/U/I/L 1 1/L 2 1/E/",
        "LIFT 27 1 0/LIFT 27 2 0/LOAD 0 1/LOAD 1 2/ADD 0 1/LOAD 1 3/BOTH 1 0/SHOW 1/",
    ),
];

fn case(sheet: &str, older: &str) -> Case {
    let case = Case::new(format!("older case {sheet:?}"), text(sheet), Expected::Reference);
    Case { older: Expected::Key(text(older)), ..case }
}

pub fn cases() -> Vec<Case> {
    let mut cases: Vec<Case> = KEYS.iter().map(|(sheet, older)| case(sheet, older)).collect();
    cases.extend(KEYS.iter().map(|(sheet, older)| case(&with_large_groups(sheet), &with_large_groups(older))));
    cases
}
