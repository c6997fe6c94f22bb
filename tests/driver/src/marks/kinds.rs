//! The kinds of random pairs: the same number and seed always give the same pair.

use super::accepted::*;
use super::drawings::{leaf_changed, operands_swapped, operator_changed, rewritten};
use super::lines::{bad_form_line, lift_or_mark_line, Place};
use super::pair::Pair;
use super::questions::*;
use super::refused::*;
use crate::kinds::{self, Kind};
use reference::{compact, gather};

pub const KINDS: [Kind<Pair>; 43] = [
    ("own tree", 6, own_tree),
    ("own tree, gathered anew by the plain builder", 8, |random| own_tree_by(gather::gather, random)),
    ("own tree, gathered anew by the compact builder", 8, |random| own_tree_by(compact::gather, random)),
    ("key program's tree", 12, |random| tree_of_key(&gatherable_question(random).sheet)),
    ("key program's tree, gathered anew", 20, |random| {
        tree_of_key(&gatherable_question_with(Gatherable::is_gathered_anew, random).sheet)
    }),
    ("key program's tree, no marks", 4, |random| tree_of_key(&unmarked_question(random))),
    ("own tree, an operator changed", 8, |random| changed(|tree, _, random| operator_changed(tree, random), random)),
    ("own tree, a leaf changed", 8, |random| changed(leaf_changed, random)),
    ("own tree, operands swapped", 8, |random| changed(|tree, _, random| operands_swapped(tree, random), random)),
    ("own tree, rewritten", 8, |random| changed(rewritten, random)),
    ("tree as written or lifted", 6, tree_as_written),
    ("a marked leaf outside the holder", 10, marked_leaf_elsewhere),
    ("a marked leaf outside the holder, an operator changed", 6, marked_leaf_elsewhere_changed),
    ("no marked leaf", 4, no_marked_leaf),
    ("one filling differs", 8, one_filling),
    ("any drawing", 8, any_drawing),
    ("any gathered drawing", 6, any_gathered_drawing),
    ("8,191 nodes, right", 2, most_nodes),
    ("8,191 nodes, not gathered", 1, most_nodes_not_gathered),
    ("8,191 nodes, a leaf changed", 1, most_nodes_changed),
    ("answered 19, a gathered tree with nearly its lamps", 5, answered_19_near),
    ("answered 19, an equivalent tree", 6, answered_19_equivalent),
    ("answered 19, any gathered tree", 4, answered_19_gathered),
    ("an I asked, differences drawn", 6, intersection_asked),
    ("differences asked, an I drawn", 6, intersection_drawn),
    ("no marks, an equivalent tree", 6, unmarked_equivalent),
    ("no marks, a change", 6, unmarked_changed),
    ("one foreign group", 6, |random| foreign(1, random)),
    ("foreign groups", 6, |random| foreign(5, random)),
    ("a foreign group, then a fault", 8, foreign_then_fault),
    ("8,192 nodes", 2, too_many_nodes),
    ("a lift or mark before the tree", 2, |random| lift_or_mark_line(Place::Before, random)),
    ("a lift or mark within the tree", 2, |random| lift_or_mark_line(Place::Within, random)),
    ("a lift or mark after the tree", 2, |random| lift_or_mark_line(Place::After, random)),
    ("a lift or mark after E", 2, |random| lift_or_mark_line(Place::AfterEnd, random)),
    ("a lift or mark after an incomplete tree", 3, |random| lift_or_mark_line(Place::Incomplete, random)),
    ("a line of no form", 4, bad_form_line),
    ("a ninth group", 3, ninth_group),
    ("no E", 2, no_end),
    ("60,000 bytes", 2, many_bytes),
    ("damaged candidate", 14, damaged_candidate),
    ("damaged question", 6, damaged_question),
    ("refused question", 14, refused_question_first),
];

/// The sum of the shares.
pub fn shares() -> usize {
    kinds::shares(&KINDS)
}

/// The pair of a number: its kind and its files.
pub fn random_pair(number: u64, seed: u64) -> (&'static str, Pair) {
    let (kind, pair) = kinds::random_input(&KINDS, number, seed.wrapping_mul(1_000_003));
    (kind, Pair { name: format!("pair {number} ({kind})"), ..pair })
}
