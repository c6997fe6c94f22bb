//! Random pairs that are marked.

use super::drawings::*;
use super::pair::{File, Pair};
use super::questions::*;
use crate::generate::{gathered, gathered_tree};
use reference::gather::{constant, gather, rows};
use reference::key::lifts;
use reference::random::Random;
use reference::refusal::Refusal;
use reference::shape::{difference, row_tree, some_groups, table_tree, union, Operators, Shape};
use reference::sheet::{Sheet, SHEET_NODES};
use reference::tree::{groups, without_intersection, LAST_GROUP, MAXIMUM_NODES};

const RIGHT: &str = "MARK 0/";
const OTHER_LAMPS: &str = "MARK 1/";
const NOT_GATHERED: &str = "MARK 2/";

/// Our own gathered tree.
pub fn own_tree(random: &mut Random) -> Pair {
    let question = gatherable_question(random);
    Pair::drawn(&question.sheet, &question.gathered).due(RIGHT)
}

/// A gathering: `gather::gather` or `compact::gather`.
type Gather = fn(&[u16], &[u16]) -> Result<(Vec<u16>, usize), Refusal>;

/// Our own gathered tree by one of the builders, where the tree after the lifts is not gathered.
pub fn own_tree_by(gather: Gather, random: &mut Random) -> Pair {
    let question = gatherable_question_with(Gatherable::is_gathered_anew, random);
    let (tree, _) = gather(&question.lifted, &question.sheet.marks).expect("a gathered tree");
    Pair::drawn(&question.sheet, &tree).due(RIGHT)
}

/// The tree that the key program returns for a question.
pub fn tree_of_key(question: &Sheet) -> Pair {
    Pair { candidate: File::TreeOfKey, ..Pair::new(question.print(), Vec::new()) }.due(RIGHT)
}

/// A change to a tree over the question's groups.
type Change = fn(&[u16], &[u16], &mut Random) -> Vec<u16>;

/// A gathered tree with a change, so that it may be right or wrong in either way.
pub fn changed(change: Change, random: &mut Random) -> Pair {
    let question = gatherable_question(random);
    Pair::drawn(&question.sheet, &change(&question.gathered, &question.groups(), random))
}

/// The question's tree, and the one that its lifts leave.
pub fn tree_as_written(random: &mut Random) -> Pair {
    let sheet = any_question(random);
    let tree = if random.one_in(4) { lifts(&sheet).tree } else { sheet.tree.clone() };
    Pair::drawn(&sheet, &tree)
}

/// A question and an equivalent tree that is gathered but for a marked leaf outside the holder.
fn with_marked_leaf_elsewhere(random: &mut Random) -> (Sheet, Vec<u16>) {
    let roomy = |question: &Gatherable| question.has_unmarked_leaf() && question.gathered.len() < MAXIMUM_NODES - 4;
    let question = gatherable_question_with(roomy, random);
    let marks = &question.sheet.marks;
    let unmarked = leaves(&question.gathered, |group| !marks.contains(&group));
    let tree = with_leaf_beside(&question.gathered, random.pick(marks), &unmarked, random);
    (question.sheet, tree)
}

pub fn marked_leaf_elsewhere(random: &mut Random) -> Pair {
    let (question, tree) = with_marked_leaf_elsewhere(random);
    Pair::drawn(&question, &tree).due(NOT_GATHERED)
}

/// The same with an operator changed, which mostly makes other lamps too.
pub fn marked_leaf_elsewhere_changed(random: &mut Random) -> Pair {
    let (question, tree) = with_marked_leaf_elsewhere(random);
    Pair::drawn(&question, &operator_changed(&tree, random))
}

/// A mark adds nothing, and the drawing, of the same lamps, has no marked leaf.
pub fn no_marked_leaf(random: &mut Random) -> Pair {
    let count = random.between(2, 8);
    let all = some_groups(count, random);
    let (marks, others) = all.split_at(random.between(1, count - 1));
    let leaves = random.between(1, 40);
    let tree = Shape::any(Operators::any(random), random).tree(leaves, others, random);
    let idle = marks.iter().fold(tree.clone(), |tree, &mark| union(&tree, &difference(&[mark], &[mark])));
    let question = Sheet { tree: idle, lifts: Vec::new(), marks: marks.to_vec() };
    Pair::drawn(&question, &rewritten(&tree, &groups(&tree), random)).due(NOT_GATHERED)
}

/// A tree that selects otherwise than the given one under a single filling of the groups.
pub fn other_in_one_filling(tree: &[u16], groups: &[u16], row: usize) -> Vec<u16> {
    let filling = row_tree(row, groups);
    if rows(tree, groups)[row] {
        difference(tree, &filling)
    } else {
        union(tree, &filling)
    }
}

/// Lamps that differ under a single filling, mostly of eight groups.
pub fn one_filling(random: &mut Random) -> Pair {
    let count = random.pick(&[2, 8, 8, 8]);
    let names = some_groups(count, random);
    let leaves = random.between(8, 60);
    let tree = Shape::any(Operators::any(random), random).tree(leaves, &names, random);
    let own = groups(&tree);
    let row = random.between(1, (1 << own.len()) - 1);
    let marks = if random.one_in(2) { own[..random.between(0, own.len())].to_vec() } else { Vec::new() };
    let question = Sheet { tree, lifts: Vec::new(), marks };
    Pair::drawn(&question, &other_in_one_filling(&question.tree, &own, row)).due(OTHER_LAMPS)
}

/// Any tree over the question's groups.
pub fn any_drawing(random: &mut Random) -> Pair {
    let sheet = any_question(random);
    let leaves = random.pick(&[2, 3, 5, 20, 200]);
    let tree = Shape::any(Operators::any(random), random).tree(leaves, &groups(&sheet.tree), random);
    Pair::drawn(&sheet, &tree)
}

/// A holder over the question's marks inside frames of its other groups.
fn any_gathered_tree(sheet: &Sheet, random: &mut Random) -> Vec<u16> {
    let others: Vec<u16> = groups(&sheet.tree).into_iter().filter(|group| !sheet.marks.contains(group)).collect();
    if others.is_empty() {
        return Shape::any(Operators::any(random), random).tree(5, &sheet.marks, random);
    }
    gathered_tree(&sheet.marks, &others, random)
}

pub fn any_gathered_drawing(random: &mut Random) -> Pair {
    let sheet = gatherable_question(random).sheet;
    Pair::drawn(&sheet, &any_gathered_tree(&sheet, random))
}

/// Right drawings of as many nodes as a candidate may have.
pub fn most_nodes(random: &mut Random) -> Pair {
    let question = gatherable_question(random);
    Pair::drawn(&question.sheet, &enlarged(&question.gathered, MAXIMUM_NODES, random)).due(RIGHT)
}

pub fn most_nodes_not_gathered(random: &mut Random) -> Pair {
    let (question, tree) = with_marked_leaf_elsewhere(random);
    Pair::drawn(&question, &enlarged(&tree, MAXIMUM_NODES, random)).due(NOT_GATHERED)
}

/// Drawings of as many nodes as a candidate may have, with one leaf changed.
pub fn most_nodes_changed(random: &mut Random) -> Pair {
    let question = gatherable_question(random);
    let tree = leaf_changed(&question.gathered, &question.groups(), random);
    Pair::drawn(&question.sheet, &enlarged(&tree, MAXIMUM_NODES, random))
}

/// A gathered tree whose lamps are nearly those of a question answered 19: all columns that vary are made one of them.
fn near_tree(question: &Sheet, random: &mut Random) -> Vec<u16> {
    let others = groups(&question.tree).into_iter().filter(|group| !question.marks.contains(group));
    let order: Vec<u16> = question.marks.iter().copied().chain(others).collect();
    let rows = rows(&question.tree, &order);
    let columns: Vec<&[bool]> = rows[..1 << order.len()].chunks(1 << question.marks.len()).collect();
    let varying: Vec<&[bool]> = columns.iter().copied().filter(|column| !constant(column)).collect();
    let kept = random.pick(&varying);
    let mut table: Vec<bool> =
        columns.iter().flat_map(|column| if constant(column) { *column } else { kept }).copied().collect();
    if table[0] {
        table[..kept.len()].fill(false);
    }
    gather(&table_tree(&table, &order), &question.marks).expect("a gathered tree").0
}

/// For a question answered 19: drawings that are near, equivalent or gathered; none is right.
pub fn answered_19_near(random: &mut Random) -> Pair {
    let question = question_answered_19(random);
    Pair::drawn(&question, &near_tree(&question, random)).due(OTHER_LAMPS)
}

pub fn answered_19_equivalent(random: &mut Random) -> Pair {
    let question = question_answered_19(random);
    let tree = rewritten(&question.tree, &groups(&question.tree), random);
    let tree = if random.one_in(3) { question.tree.clone() } else { tree };
    Pair::drawn(&question, &tree).due(NOT_GATHERED)
}

pub fn answered_19_gathered(random: &mut Random) -> Pair {
    let question = question_answered_19(random);
    Pair::drawn(&question, &any_gathered_tree(&question, random)).due(OTHER_LAMPS)
}

/// A gathered tree with an `I`, an equivalent one in which one `I` is written by differences, and the mark of the
/// latter: the marked leaves stand in two places if they are copied beside an unmarked one.
fn with_differences(random: &mut Random) -> (Sheet, Vec<u16>, &'static str) {
    let sheet = std::iter::repeat_with(|| gathered(random)).find(|sheet| !without_intersection(&sheet.tree));
    let sheet = sheet.expect("a tree with an I");
    let (position, copy_right) = (random.pick(&intersections(&sheet.tree)), random.one_in(2));
    let tree = by_differences(&sheet.tree, position, copy_right);
    let [left, right] = operands(&sheet.tree, position);
    let marked = |part: &[u16]| part.iter().any(|number| sheet.marks.contains(number));
    let unmarked = |part: &[u16]| part.iter().any(|number| *number <= LAST_GROUP && !sheet.marks.contains(number));
    let copied = if copy_right { &right } else { &left };
    let scattered = marked(copied) && (unmarked(&left) || unmarked(&right));
    (sheet, tree, if scattered { NOT_GATHERED } else { RIGHT })
}

/// x I y is asked and x−(x−y) drawn; at times without marks.
pub fn intersection_asked(random: &mut Random) -> Pair {
    let (mut question, tree, mark) = with_differences(random);
    if random.one_in(4) {
        question.marks.clear();
        return Pair::drawn(&question, &tree).due(RIGHT);
    }
    Pair::drawn(&question, &tree).due(mark)
}

/// x−(x−y) is asked and x I y drawn.
pub fn intersection_drawn(random: &mut Random) -> Pair {
    loop {
        let (Sheet { tree: drawing, marks, .. }, tree, _) = with_differences(random);
        if tree.len() <= SHEET_NODES {
            return Pair::drawn(&Sheet { tree, lifts: Vec::new(), marks }, &drawing).due(RIGHT);
        }
    }
}

/// For a question without marks: equivalent drawings are right.
pub fn unmarked_equivalent(random: &mut Random) -> Pair {
    let question = unmarked_question(random);
    let tree = if random.one_in(3) { lifts(&question).tree } else { question.tree.clone() };
    let tree = rewritten(&tree, &groups(&tree), random);
    Pair::drawn(&question, &tree).due(RIGHT)
}

pub fn unmarked_changed(random: &mut Random) -> Pair {
    let question = unmarked_question(random);
    let change = random.pick(&[operator_changed, operands_swapped]);
    Pair::drawn(&question, &change(&question.tree, random))
}
