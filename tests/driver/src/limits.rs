//! Sheets on either side of each limit of 01 and 02.

use crate::cases::{text, Case, Expected};
use crate::growth::grown_to_many_registers;
use reference::random::Random;
use reference::shape::{difference, intersection, levels_of_nodes, union, Operators, Shape, GROUP_EDGES};
use reference::sheet::{Sheet, SHEET_BYTES, SHEET_NODES};
use reference::tree::LAST_GROUP;

/// So many of these sheets have a key that loads a group of five digits into a register of two.
pub const LONG_KEYS: usize = 8;

fn case(name: &str, bytes: Vec<u8>, expected: Expected) -> Case {
    Case::new(format!("limit: {name}"), bytes, expected)
}

fn refused(name: &str, bytes: Vec<u8>, number: usize, line: usize) -> Case {
    case(name, bytes, Expected::Key(text(&format!("NO {number} {line}/"))))
}

fn accepted(name: &str, bytes: Vec<u8>) -> Case {
    case(name, bytes, Expected::Reference)
}

/// Lines of `G`, as many as asked for, over the first eight groups.
pub fn group_lines(count: usize) -> String {
    (0..count).map(|line| format!("G\t{}\n", line % 8 + 1)).collect()
}

/// Group lines and operators that make one tree of `nodes` nodes.
pub fn tree_lines(nodes: usize) -> String {
    group_lines(nodes.div_ceil(2)) + &"U\n".repeat(nodes / 2)
}

fn node_limit() -> Vec<Case> {
    vec![
        accepted("253 nodes", (tree_lines(253) + "E\n").into_bytes()),
        accepted("255 nodes", (tree_lines(255) + "E\n").into_bytes()),
        refused("257 nodes", (tree_lines(257) + "E\n").into_bytes(), 5, 256),
        accepted("255 nodes, all operators I", (tree_lines(255).replace('U', "I") + "E\n").into_bytes()),
        refused("257 nodes, all operators I", (tree_lines(257).replace('U', "I") + "E\n").into_bytes(), 5, 256),
        refused("256 groups", group_lines(256).into_bytes(), 5, 256),
        refused("1,023 nodes, which 01 allowed", (tree_lines(1023) + "E\n").into_bytes(), 5, 256),
    ]
}

/// 255 tree lines, which make one tree or leave three, and a 256th line of each kind.
fn line_after_most_nodes() -> Vec<Case> {
    let one = tree_lines(255);
    let three = group_lines(129) + &"U\n".repeat(126);
    let sheet = |tree: &str, line: &str| format!("{tree}{line}\nE\n").into_bytes();
    let fault = |name: &str, tree: &str, line: &str, number: usize| refused(name, sheet(tree, line), number, 256);
    vec![
        fault("256th line G", &one, "G\t1", 5),
        fault("256th line G, three trees", &three, "G\t1", 5),
        fault("256th line U with one tree: 4 before 5", &one, "U", 4),
        fault("256th line D with one tree: 4 before 5", &one, "D", 4),
        fault("256th line I with one tree: 4 before 5", &one, "I", 4),
        fault("256th line U", &three, "U", 5),
        fault("256th line D", &three, "D", 5),
        fault("256th line I", &three, "I", 5),
        fault("256th line a ninth group: 5 before 6", &one, "G\t9", 5),
        fault("256th line of no form: 2 before 5", &one, "G\t0", 2),
        accepted("256th line L", sheet(&one, "L\t0\t1")),
        accepted("256th line K", sheet(&one, "K\t1")),
        refused("256th line E, and one more", sheet(&one, "E"), 3, 257),
        fault("256th line L, three trees", &three, "L\t0\t1", 7),
        fault("256th line K, three trees", &three, "K\t1", 7),
        fault("256th line E, three trees", &three, "E", 7),
        refused("254 lines of two trees", format!("{}G\t1\nE\n", tree_lines(253)).into_bytes(), 7, 255),
    ]
}

fn group_limit() -> Vec<Case> {
    let eight = group_lines(8) + &"D\n".repeat(7);
    let nine = group_lines(8) + "U\nG\t10\nU\n";
    vec![
        accepted(
            "8 groups, all marked",
            format!("{eight}K\t8\nK\t7\nK\t6\nK\t5\nK\t4\nK\t3\nK\t2\nK\t1\nE\n").into_bytes(),
        ),
        accepted("8 groups, one marked", format!("{eight}K\t8\nE\n").into_bytes()),
        accepted("8 groups again and again", (group_lines(80) + &"U\n".repeat(79) + "E\n").into_bytes()),
        refused("a ninth group", nine.into_bytes(), 6, 10),
    ]
}

/// A number in each place where a group may stand: the sheet, the key if it is a group, the line if it is none.
fn group_sheets(number: u16) -> [(String, String, usize); 8] {
    [
        (format!("G {number}/E/"), format!("LOAD 0 {number}/"), 1),
        (format!("G 2/G {number}/D/E/"), format!("LOAD 0 2/LOAD 1 {number}/CUT 0 0 1/"), 2),
        (format!("G 2/G 3/G {number}/E/"), "NO 7 4/".to_string(), 3),
        (format!("G 2/G 3/G 4/G 5/G 6/G 7/G 8/G 9/G {number}/E/"), "NO 6 9/".to_string(), 9),
        (format!("G {number}/G 2/D/K {number}/E/"), format!("HELD 0 1 1/LOAD 0 {number}/LOAD 1 2/CUT 0 0 1/"), 1),
        (format!("G 2/G 3/U/K {number}/E/"), "NO 8 4/".to_string(), 4),
        (format!("G 2/E/G {number}/"), "NO 3 3/".to_string(), 3),
        (format!("G 2/E/K {number}/"), "NO 3 3/".to_string(), 3),
    ]
}

/// The older player's key where one of these sheets has this one.
fn older_key(key: &str) -> String {
    if key.contains("LOAD") {
        key.replace("CUT 0 0 1/", "CUT 0 1/") + "SHOW 0/"
    } else {
        key.to_string()
    }
}

fn group_edges() -> Vec<Case> {
    let mut cases = Vec::new();
    for (number, is_group) in GROUP_EDGES {
        for (sheet, key, line) in group_sheets(number) {
            let key = if is_group { key } else { format!("NO 2 {line}/") };
            let older = Expected::Key(text(&older_key(&key)));
            let case = case(&format!("{sheet:?}"), text(&sheet), Expected::Key(text(&key)));
            cases.push(Case { older, ..case });
        }
    }
    cases
}

/// Fields of too large a number, some of which come to a group when cut to 16, 32 or 64 bits, and a group after a nought.
fn long_group_fields() -> Vec<Case> {
    let with_high_bit = |bit: usize| ((1_u128 << bit) + u128::from(LAST_GROUP)).to_string();
    let mut fields = [16, 32, 64].map(with_high_bit).to_vec();
    fields.extend([format!("0{LAST_GROUP}"), format!("{LAST_GROUP}0"), "65536".to_string(), "99999".to_string()]);
    let sheets = fields.iter().flat_map(|field| [(format!("G {field}/E/"), 1), (format!("G 1/K {field}/E/"), 2)]);
    sheets.map(|(sheet, line)| refused(&format!("{sheet:?}"), text(&sheet), 2, line)).collect()
}

/// Keys with lines of 14 bytes, of up to 8,185 instructions, at last also with nearly 10,000 lifts.
fn long_keys() -> Vec<Case> {
    let groups: Vec<u16> = (LAST_GROUP - 7..=LAST_GROUP).collect();
    let mut random = Random::new(1988);
    let mut sheets: Vec<Sheet> =
        (0..LONG_KEYS - 1).map(|height| grown_to_many_registers(height, &groups, &mut random)).collect();
    let mut filled_up = grown_to_many_registers(0, &groups, &mut random);
    let bytes_left = SHEET_BYTES - filled_up.print().len();
    filled_up.lifts.extend(vec![(0, 1); bytes_left / "L\t0\t1\n".len()]);
    sheets.push(filled_up);
    sheets.iter().enumerate().map(|(at, sheet)| accepted(&format!("long key {at}"), sheet.print())).collect()
}

/// A sheet of exactly so many bytes, filled up with lifts.
pub fn sheet_of(bytes: usize) -> Vec<u8> {
    let mut text = String::from("G\t1\nG\t2\nD\nG\t3\nD\nG\t4\nU\nG\t5\nD\n");
    let end = "E\n";
    while (bytes - text.len() - end.len()) % 6 != 0 {
        text += "L\t10\t1\n";
    }
    while text.len() + end.len() < bytes {
        text += "L\t0\t1\n";
    }
    (text + end).into_bytes()
}

fn byte_limit() -> Vec<Case> {
    let noughts = |count: usize| vec![b'0'; count];
    vec![
        accepted("60,000 bytes", sheet_of(SHEET_BYTES)),
        refused("60,001 bytes", sheet_of(SHEET_BYTES + 1), 1, 0),
        refused("60,000 bytes without LF", noughts(SHEET_BYTES), 2, 1),
        refused("60,001 bytes without LF", noughts(SHEET_BYTES + 1), 1, 0),
        refused("60,001 bytes, all but the last a whole sheet", [sheet_of(SHEET_BYTES), noughts(1)].concat(), 1, 0),
        refused("200,000 bytes", noughts(200_000), 1, 0),
        refused("60,000 blank lines", vec![b'\n'; SHEET_BYTES], 2, 1),
    ]
}

/// Trees as large and as deep as a sheet allows, of every shape, lifted by 1, 98 and 99 levels.
fn deep_lifts() -> Vec<Case> {
    let mut random = Random::new(1987);
    let groups: Vec<u16> = (1..=8).collect();
    let mut cases = Vec::new();
    for levels in [1, 98, 99] {
        for _ in 0..20 {
            let operators = Operators::any(&mut random);
            let tree = Shape::any(operators, &mut random).tree(SHEET_NODES.div_ceil(2), &groups, &mut random);
            let levels_of = levels_of_nodes(&tree);
            let deepest = (0..tree.len()).max_by_key(|&position| levels_of[position]).unwrap_or(0);
            let lifts = vec![(deepest, levels), (deepest, levels), (SHEET_NODES - 1, 1), (SHEET_NODES, 1), (8190, 99)];
            cases.push(accepted(&format!("lifts of {levels} levels"), Sheet { tree, lifts, marks: vec![] }.print()));
        }
    }
    cases
}

/// A leaf at exactly the level from which so many levels are allowed, and one level lower.
fn level_limit() -> Vec<Case> {
    let mut cases = Vec::new();
    for levels in [1, 2, 98, 99] {
        for level in [levels, levels + 1] {
            for join in [union, difference, intersection] {
                let tree = (0..level).fold(vec![1], |tree, _| join(&tree, &[2]));
                let sheet = Sheet { tree, lifts: vec![(0, levels)], marks: vec![] };
                cases.push(accepted(&format!("{levels} levels from level {level}"), sheet.print()));
            }
        }
    }
    cases
}

pub fn limits() -> Vec<Case> {
    let nodes = [node_limit(), line_after_most_nodes()];
    let groups = [group_limit(), group_edges(), long_group_fields(), long_keys()];
    nodes.into_iter().chain(groups).chain([byte_limit(), deep_lifts(), level_limit()]).flatten().collect()
}
