//! `gather`: random trees and marks, large tables, every function of few groups, the edges of groups and the order of
//! faults. That the tree of one without `I` has none either is tested of every call (`check`).

use crate::faults::{choices, Fault};
use crate::inputs::{
    buffer_length, count_intersection, count_last_group, filled, list, numbers, same, same_buffer, MOST_LEAVES,
};
use calls::library;
use reference::calls::{GatherAnswer, TREE_BUFFER};
use reference::check::{ensure, gathering};
use reference::closure::{gathered_sizes, Sizes, UNREACHED};
use reference::random::Random;
use reference::report::Report;
use reference::shape::{
    gatherable_table, intersection, join, some_groups, table_tree, union_of_groups, Operators, Shape, GROUP_EDGES,
};
use reference::tree::{groups, DIFFERENCE, INTERSECTION, THREE_OPERATORS, TWO_OPERATORS, UNION};

struct Input {
    tree: Vec<u16>,
    marks: Vec<u16>,
    buffer: usize,
}

/// The answer and the buffer of a call with a buffer that is long enough.
fn judge(input: &Input, answer: GatherAnswer, out: &[u16], before: &[u16]) -> Result<(), String> {
    let [number, length, holder] = answer;
    if number != 0 {
        ensure(length == 0 && holder == 0, "numbers besides the refusal's")?;
        same_buffer(out, before)?;
        return gathering(&input.tree, &input.marks, Err(number as u16));
    }
    let length = length as usize;
    ensure(length <= TREE_BUFFER, "the tree is longer than 8,191 nodes")?;
    same_buffer(&out[length..], &before[length..])?;
    gathering(&input.tree, &input.marks, Ok((&out[..length], holder as usize)))
}

fn compare(name: &str, input: &Input, report: &mut Report) -> u32 {
    let before = filled(input.buffer);
    let mut out = before.clone();
    let answer = library::gather(&input.tree, &input.marks, &mut out);
    let result = if input.buffer < TREE_BUFFER {
        same("answer", &answer, &[11, 0, 0]).and_then(|()| same_buffer(&out, &before))
    } else {
        judge(input, answer, &out, &before)
    };
    let text = numbers("tree", &input.tree) + &numbers("marks", &input.marks) + &format!("buffer {}\n", input.buffer);
    report.count(format!("gather: {name}"));
    report.count(format!("gather: answered {}", answer[0]));
    count_last_group("gather", &input.tree, answer[0], report);
    count_intersection("gather", &input.tree, answer[0], report);
    report.saved_test(&format!("gather, {name}"), result, &[("txt", text.as_bytes())]);
    answer[0]
}

/// Marks of the tree, or now and then wrong ones.
fn marks(tree: &[u16], random: &mut Random) -> Vec<u16> {
    let mut marks = groups(tree);
    random.shuffle(&mut marks);
    marks.truncate(random.between(1, marks.len().max(1)));
    match random.below(40) {
        0 => marks.clear(),
        1 => marks.extend(marks.clone()),
        2 => marks.push(random.between(0, 65535) as u16),
        3 => marks.insert(0, UNION),
        4 => marks = vec![1; 100],
        _ => {}
    }
    marks
}

fn random_gathering(random: &mut Random) -> Input {
    let most = random.pick(&[2, 3, 4, 6, 8, 8, 10]);
    let tree = list(most, random);
    let marks = marks(&tree, random);
    Input { tree, marks, buffer: buffer_length(TREE_BUFFER, random) }
}

/// Any table that a gathered tree has, given as a tree that is not gathered.
fn table_gathering(random: &mut Random) -> Input {
    let count = random.between(2, 8);
    let marked = random.between(1, count - 1);
    let groups = some_groups(count, random);
    let tree = table_tree(&gatherable_table(count, marked, random), &groups);
    Input { tree: with_intersection_or_not(tree, random), marks: groups[..marked].to_vec(), buffer: TREE_BUFFER }
}

/// The tree, or an equivalent one with an `I`.
fn with_intersection_or_not(tree: Vec<u16>, random: &mut Random) -> Vec<u16> {
    match Operators::any(random) {
        Operators::WithoutIntersection => tree,
        Operators::All => intersection(&tree, &union_of_groups(&groups(&tree))),
    }
}

/// A tree of 8,191 nodes, at random or gathered already.
fn largest(random: &mut Random) -> Input {
    let groups = some_groups(8, random);
    let (marks, others) = groups.split_at(random.between(1, 7));
    let operators = Operators::any(random);
    let shape = Shape::any(operators, random);
    let leaves = random.between(1, MOST_LEAVES - 1);
    let tree = if random.one_in(2) {
        shape.tree(MOST_LEAVES, &groups, random)
    } else {
        let (holder, rest) = (shape.tree(leaves, marks, random), shape.tree(MOST_LEAVES - leaves, others, random));
        let operator = operators.pick(random);
        if random.one_in(2) {
            join(&holder, &rest, operator)
        } else {
            join(&rest, &holder, operator)
        }
    };
    Input { tree, marks: marks.to_vec(), buffer: TREE_BUFFER }
}

fn fault_order(report: &mut Report) {
    let faults: [Fault<Input>; 6] = [
        (11, |input| input.buffer = TREE_BUFFER - 1),
        (12, |input| input.tree.push(UNION)),
        (17, |input| (11..=15).for_each(|group| input.tree.extend([group, UNION]))),
        (18, |input| input.marks.push(input.marks[0])),
        (18, |input| input.marks.push(10)),
        (18, |input| input.marks.clear()),
    ];
    let (u, d) = (UNION, DIFFERENCE);
    let both = INTERSECTION;
    let trees = [
        (19, [1, 3, d, 2, 4, d, u]),
        (0, [1, 2, d, 3, 4, d, u]),
        (19, [1, 3, both, 2, 4, both, u]),
        (0, [1, 2, both, 3, 4, d, both]),
    ];
    for (none, tree) in trees {
        let fresh = || Input { tree: tree.to_vec(), marks: vec![1, 2], buffer: TREE_BUFFER };
        for (number, input) in choices(&faults, none, fresh) {
            let answered = compare("order of faults", &input, report);
            report.test("gather, order of faults by hand", same("number", &answered, &number));
        }
    }
}

/// 01's samples (vii) to (x), and others with `I`: the tree, the marks and the number due.
fn samples(report: &mut Report) {
    let (u, d, both) = (UNION, DIFFERENCE, INTERSECTION);
    let samples: [(&[u16], &[u16], u32); 14] = [
        (&[1, 3, d, 2, 4, d, u], &[1, 2], 19),
        (&[1, 3, d, 2, 3, d, u], &[1, 2], 0),
        (&[1, 2, d, 2, 1, d, u], &[1], 19),
        (&[1, 1, 2, d, d], &[1], 0),
        (&[1, 2, both], &[1], 0),
        (&[1, 2, both], &[2], 0),
        (&[1, 2, both, 3, u], &[1, 2], 0),
        (&[1, 3, both, 2, 3, both, u], &[1, 2], 0),
        (&[1, 2, both, 3, both], &[3, 1], 0),
        (&[1, 3, both, 2, 4, both, u], &[1, 2], 19),
        (&[1, 2, u, 1, 2, both, d], &[1], 19),
        (&[1, 2, 65_004], &[1], 12),
        (&[1, both, 2], &[1], 12),
        (&[1, 2, both], &[both], 18),
    ];
    for (tree, marks, number) in samples {
        let answered =
            compare("sample", &Input { tree: tree.to_vec(), marks: marks.to_vec(), buffer: TREE_BUFFER }, report);
        report.test("gather, sample by hand", same("number", &answered, &number));
    }
}

/// A number in place of a marked group, of another, and of a mark alone.
fn group_edge(number: u16, is_group: bool, report: &mut Report) {
    let (n, u, d) = (number, UNION, DIFFERENCE);
    // The tree, the marks and the numbers due of a group and of any other number.
    let trees: [(&[u16], &[u16], u32, u32); 6] = [
        (&[n, 2, d, 3, 4, d, u], &[n, 2], 0, 12),
        (&[5, 2, d, n, 4, d, u], &[5, 2], 0, 12),
        (&[n, 3, d, 2, 3, d, u], &[2, n], 0, 12),
        (&[n, 3, d, 2, 4, d, u], &[n, 2], 19, 12),
        (&[2, 3, u, 4, u, 5, u, 6, u, 7, u, 8, u, 9, u, n, u], &[n], 17, 12),
        (&[5, 2, d, 3, 4, d, u], &[5, n], 18, 18),
    ];
    for (tree, marks, of_group, of_other) in trees {
        let input = Input { tree: tree.to_vec(), marks: marks.to_vec(), buffer: TREE_BUFFER };
        let answered = compare("edge of groups", &input, report);
        let due = if is_group { of_group } else { of_other };
        report.test(&format!("gather, {number} in {tree:?} by hand"), same("number", &answered, &due));
    }
}

/// So many groups have every function tried.
const FEW: usize = 3;

/// One function with these marks, given without `I` and with one. The closure over gathered trees of two operators and
/// the one over all three give the number due.
fn verdict(function: usize, groups: &[u16], marked: &[usize], closures: &[Sizes; 2], report: &mut Report) {
    let [two, three] = closures.each_ref().map(|sizes| if sizes[function] == UNREACHED { 19 } else { 0 });
    let table: Vec<bool> = (0..1 << groups.len()).map(|row| function >> row & 1 == 1).collect();
    let marks: Vec<u16> = marked.iter().map(|&place| groups[place]).collect();
    let tree = table_tree(&table, groups);
    for tree in [intersection(&tree, &union_of_groups(groups)), tree] {
        let answered = compare("every function", &Input { tree, marks: marks.clone(), buffer: TREE_BUFFER }, report);
        report.test("gather, verdict by the closures", same("numbers", &[answered; 2], &[two, three]));
    }
}

/// Every function of one to three groups that a tree has, with every choice of marks.
fn verdicts(report: &mut Report) {
    for count in 1..=FEW {
        let groups: Vec<u16> = (1..=count as u16).collect();
        for choice in 1..1_usize << count {
            let marked: Vec<usize> = (0..count).filter(|place| choice >> place & 1 == 1).collect();
            let closures = [TWO_OPERATORS, THREE_OPERATORS].map(|operators| gathered_sizes(count, &marked, operators));
            let functions = (0..1_usize << (1 << count)).filter(|function| function & 1 == 0);
            functions.for_each(|function| verdict(function, &groups, &marked, &closures, report));
        }
    }
}

pub fn run(report: &mut Report) {
    let mut random = Random::new(4);
    for _ in 0..6000 {
        compare("random", &random_gathering(&mut random), report);
    }
    for _ in 0..3000 {
        compare("table", &table_gathering(&mut random), report);
    }
    for _ in 0..60 {
        compare("largest", &largest(&mut random), report);
    }
    samples(report);
    verdicts(report);
    GROUP_EDGES.iter().for_each(|&(number, is_group)| group_edge(number, is_group, report));
    fault_order(report);
}
