//! Pairs on either side of each limit of a candidate's file, and of the question's.

use super::accepted::other_in_one_filling;
use super::pair::Pair;
use crate::cases::text;
use crate::limits::{group_lines, sheet_of, tree_lines};
use reference::shape::{difference, union, GROUP_EDGES};
use reference::sheet::{print_tree, SHEET_BYTES, SHEET_NODES};
use reference::tree::{LAST_GROUP, MAXIMUM_NODES};

fn pair(name: &str, question: Vec<u8>, candidate: Vec<u8>, line: &str) -> Pair {
    Pair { name: format!("limit: {name}"), ..Pair::new(question, candidate) }.due(line)
}

/// A question of the union of eight groups, the first two of which are marked.
fn eight_groups() -> Vec<u8> {
    (tree_lines(15) + "K\t1\nK\t2\nE\n").into_bytes()
}

/// The same without marks.
fn eight_unmarked() -> Vec<u8> {
    (tree_lines(15) + "E\n").into_bytes()
}

fn nodes_of_candidate() -> Vec<Pair> {
    let counts = [SHEET_NODES - 2, SHEET_NODES, SHEET_NODES + 2, 1023, 1025, MAXIMUM_NODES - 2, MAXIMUM_NODES];
    let drawn = |nodes: usize| (tree_lines(nodes) + "E\n").into_bytes();
    let mut pairs = Vec::new();
    for nodes in counts {
        pairs.push(pair(&format!("{nodes} nodes"), eight_unmarked(), drawn(nodes), "MARK 0/"));
        pairs.push(pair(&format!("{nodes} nodes, not gathered"), eight_groups(), drawn(nodes), "MARK 2/"));
    }
    let both = |nodes: usize| (tree_lines(nodes).replace('U', "I") + "E\n").into_bytes();
    pairs.push(pair("8,191 nodes of I", both(15), both(MAXIMUM_NODES), "MARK 0/"));
    pairs.push(pair("8,193 nodes of I", both(15), both(MAXIMUM_NODES + 2), "NO 5 8192 1/"));
    let too_many = [MAXIMUM_NODES + 2, 2 * MAXIMUM_NODES + 1];
    pairs.extend(too_many.map(|nodes| pair(&format!("{nodes} nodes"), eight_groups(), drawn(nodes), "NO 5 8192 1/")));
    pairs
}

/// 8,191 tree lines, which make one tree or leave three, and an 8,192nd line of each kind.
fn line_after_most_nodes() -> Vec<Pair> {
    let one = tree_lines(MAXIMUM_NODES);
    let three = group_lines(MAXIMUM_NODES / 2 + 2) + &"U\n".repeat(MAXIMUM_NODES / 2 - 1);
    let lines = [
        (&one, "G\t1", 5),
        (&one, "G\t9", 5),
        (&one, "U", 4),
        (&one, "D", 4),
        (&one, "I", 4),
        (&one, "L\t0\t1", 3),
        (&one, "K\t1", 3),
        (&one, "G\t0", 2),
        (&three, "G\t1", 5),
        (&three, "U", 5),
        (&three, "D", 5),
        (&three, "I", 5),
        (&three, "E", 7),
        (&three, "L\t0\t1", 3),
        (&three, "K\t1", 3),
        (&three, "X", 2),
    ];
    let refused = |(tree, line, number): (&String, &str, usize)| {
        let trees = if *tree == one { "one tree" } else { "three trees" };
        let name = format!("8,192nd line {line:?} after {trees}");
        let candidate = format!("{tree}{line}\nE\n").into_bytes();
        pair(&name, eight_groups(), candidate, &format!("NO {number} 8192 1/"))
    };
    let mut pairs = lines.map(refused).to_vec();
    let no_end = one.clone().into_bytes();
    pairs.push(pair("8,191 nodes without E", eight_groups(), no_end, "NO 10 8192 1/"));
    let foreign = format!("G\t9\n{}", &one["G\t1\n".len()..]).replace("G\t8\n", "G\t7\n") + "E\n";
    pairs.push(pair("8,191 nodes, the first foreign", eight_groups(), foreign.into_bytes(), "NO 26 1 1/"));
    pairs
}

/// A tree of 8,191 nodes, of every shape, with the last group alone.
fn deep_trees() -> Vec<Pair> {
    let leaf = [LAST_GROUP];
    let times = MAXIMUM_NODES / 2;
    let left = (0..times).fold(leaf.to_vec(), |tree, _| union(&tree, &leaf));
    let right = [vec![LAST_GROUP; times + 1], vec![left[2]; times]].concat();
    let even = (0..12).fold(leaf.to_vec(), |tree, _| union(&tree, &tree));
    let empty = difference(&even[..even.len() / 2], &even[..even.len() / 2]);
    let question = |marks: &str| text(&format!("G {LAST_GROUP}/{marks}E/"));
    let trees = [("left", left, 0), ("right", right, 0), ("even", even, 0), ("even, empty", empty, 1)];
    let mut pairs = Vec::new();
    for (name, tree, mark) in trees {
        assert_eq!(tree.len(), MAXIMUM_NODES);
        for marks in ["", "K 60000/"] {
            let name = format!("8,191 nodes, {name}, marks {marks:?}");
            pairs.push(pair(&name, question(marks), print_tree(&tree), &format!("MARK {mark}/")));
        }
    }
    pairs
}

fn groups_of_candidate() -> Vec<Pair> {
    let groups =
        |first: usize, last: usize| -> String { (first..=last).map(|group| format!("G\t{group}\n")).collect() };
    let drawn = |first: usize, last: usize| (groups(first, last) + &"U\n".repeat(last - first) + "E\n").into_bytes();
    vec![
        pair("8 groups", eight_unmarked(), drawn(1, 8), "MARK 0/"),
        pair("8 groups, not gathered", eight_groups(), drawn(1, 8), "MARK 2/"),
        pair("7 of 8 groups", eight_groups(), drawn(1, 7), "MARK 1/"),
        pair("8 groups, one foreign", eight_groups(), drawn(2, 9), "NO 26 8 1/"),
        pair("8 foreign groups", eight_groups(), drawn(9, 16), "NO 26 1 1/"),
        pair("9 groups: 6 before 26", eight_groups(), drawn(1, 9), "NO 6 9 1/"),
        pair("9 foreign groups", text("G 1/E/"), drawn(2, 10), "NO 6 9 1/"),
    ]
}

/// A number in each place where a group may stand; the line for a group and the line for another number.
fn group_edges() -> Vec<Pair> {
    let mut pairs = Vec::new();
    for (number, is_group) in GROUP_EDGES {
        let own = format!("G {number}/E/");
        let marked = format!("G {number}/G 2/D/K {number}/E/");
        let places = [
            (own.as_str(), own.as_str(), "MARK 0/", "NO 2 1 0/"),
            ("G 2/E/", &own, "NO 26 1 1/", "NO 2 1 1/"),
            (&own, "G 2/E/", "NO 26 1 1/", "NO 2 1 0/"),
            ("G 2/G 3/U/E/", &format!("G 2/G 3/U/G {number}/U/E/"), "NO 26 4 1/", "NO 2 4 1/"),
            (&marked, &format!("G {number}/G 2/D/E/"), "MARK 0/", "NO 2 1 0/"),
            (&marked, &format!("G {number}/G {number}/G 2/D/U/G 2/D/E/"), "MARK 2/", "NO 2 1 0/"),
            ("G 2/E/", &format!("G 2/K {number}/E/"), "NO 3 2 1/", "NO 2 2 1/"),
        ];
        for (question, candidate, for_group, for_other) in places {
            let line = if is_group { for_group } else { for_other };
            pairs.push(pair(&format!("{question:?}, {candidate:?}"), text(question), text(candidate), line));
        }
    }
    pairs
}

/// Lines of one group, and a last one that is cut off, up to so many bytes.
fn group_bytes(count: usize) -> Vec<u8> {
    b"G\t1\n".iter().copied().cycle().take(count).collect()
}

fn bytes_of_files() -> Vec<Pair> {
    let question = || text("G 1/K 1/E/");
    let drawing = |line: &str| text(line);
    // `sheet_of` has this tree and lifts.
    let tree = "G 1/G 2/D/G 3/D/G 4/U/G 5/D/E/";
    vec![
        pair("60,000 bytes of nodes", question(), group_bytes(SHEET_BYTES), "NO 5 8192 1/"),
        pair("60,001 bytes of nodes", question(), group_bytes(SHEET_BYTES + 1), "NO 1 0 1/"),
        pair("60,000 bytes without LF", question(), vec![b'0'; SHEET_BYTES], "NO 2 1 1/"),
        pair("60,001 bytes without LF", question(), vec![b'0'; SHEET_BYTES + 1], "NO 1 0 1/"),
        pair("1,000,000 bytes", question(), group_bytes(1_000_000), "NO 1 0 1/"),
        pair("60,000 bytes of a sheet", question(), sheet_of(SHEET_BYTES), "NO 3 10 1/"),
        pair("60,001 bytes of a sheet", question(), sheet_of(SHEET_BYTES + 1), "NO 1 0 1/"),
        pair("question of 60,000 bytes", sheet_of(SHEET_BYTES), drawing(tree), "MARK 0/"),
        pair("question of 60,001 bytes", sheet_of(SHEET_BYTES + 1), drawing(tree), "NO 1 0 0/"),
        pair("both of 60,001 bytes", sheet_of(SHEET_BYTES + 1), group_bytes(SHEET_BYTES + 1), "NO 1 0 0/"),
        pair("question of 1,000,000 bytes", group_bytes(1_000_000), drawing(tree), "NO 1 0 0/"),
    ]
}

/// The question keeps the sheet's limit.
fn nodes_of_question() -> Vec<Pair> {
    let sheet = |nodes: usize| (tree_lines(nodes) + "E\n").into_bytes();
    let most = sheet(SHEET_NODES);
    vec![
        pair("question of 255 nodes", most.clone(), most.clone(), "MARK 0/"),
        pair("question of 257 nodes", sheet(SHEET_NODES + 2), most.clone(), "NO 5 256 0/"),
        pair("question of 8,191 nodes", sheet(MAXIMUM_NODES), sheet(MAXIMUM_NODES), "NO 5 256 0/"),
        pair("question of 255 nodes, a larger drawing", most, sheet(MAXIMUM_NODES), "MARK 0/"),
    ]
}

/// Every filling of eight groups counts: drawings that differ under one of them alone.
fn every_filling() -> Vec<Pair> {
    let groups: Vec<u16> = (1..=8).collect();
    let tree = groups[1..].iter().fold(vec![1], |tree, &group| union(&tree, &[group]));
    let other = |row: usize| print_tree(&other_in_one_filling(&tree, &groups, row));
    (1..256).map(|row| pair(&format!("filling {row}"), eight_groups(), other(row), "MARK 1/")).collect()
}

pub fn limits() -> Vec<Pair> {
    let nodes = [nodes_of_candidate(), line_after_most_nodes(), deep_trees(), nodes_of_question()];
    nodes
        .into_iter()
        .chain([groups_of_candidate(), group_edges(), every_filling(), bytes_of_files()])
        .flatten()
        .collect()
}
