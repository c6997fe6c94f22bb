//! The functions that gathered trees of few groups have, found by closing under frames.
//!
//! A function of k groups is a table of 2^k bits: bit r is its value in row r, in which group i
//! is in exactly when bit i of r is 1. A gathered tree is a holder (any tree over marked groups)
//! inside frames `y U b`, `b U y`, `y − b`, `b − y`, `y I b`, `b I y`, where b is any tree over
//! unmarked groups. Groups outside the given tree add nothing: emptying them in an equivalent
//! gathered tree leaves it equivalent, and b remains a function of b's other groups that is false
//! when all are empty, so it is that of a tree over those. The driver tries an outside group too.

use crate::tree::Operator;

pub const UNREACHED: usize = usize::MAX;

/// For each function, the fewest nodes of a tree that has it, or `UNREACHED`.
pub type Sizes = Vec<usize>;

fn none(groups: usize) -> Sizes {
    vec![UNREACHED; 1 << (1 << groups)]
}

/// The function of one group.
fn variable(groups: usize, group: usize) -> usize {
    (0..1 << groups).filter(|row| row >> group & 1 == 1).map(|row| 1 << row).sum()
}

/// The two functions that this operator makes of two functions, by their order.
fn joined(operator: Operator, one: usize, other: usize) -> [usize; 2] {
    match operator {
        Operator::Union => [one | other; 2],
        Operator::Difference => [one & !other, other & !one],
        Operator::Intersection => [one & other; 2],
    }
}

/// Puts every reached function into a frame with each of `others`; answers whether any size fell.
fn add_frames(sizes: &mut Sizes, others: &[(usize, usize)], operators: &[Operator]) -> bool {
    let mut changed = false;
    for function in 0..sizes.len() {
        if sizes[function] == UNREACHED {
            continue;
        }
        for &(other, other_size) in others {
            let size = sizes[function] + 1 + other_size;
            for result in operators.iter().flat_map(|&operator| joined(operator, function, other)) {
                if size < sizes[result] {
                    sizes[result] = size;
                    changed = true;
                }
            }
        }
    }
    changed
}

fn reached(sizes: &Sizes) -> Vec<(usize, usize)> {
    sizes.iter().copied().enumerate().filter(|&(_, size)| size != UNREACHED).collect()
}

/// All trees of these operators over those of the groups that are chosen.
pub fn tree_sizes(groups: usize, chosen: &[usize], operators: &[Operator]) -> Sizes {
    let mut sizes = none(groups);
    for &group in chosen {
        sizes[variable(groups, group)] = 1;
    }
    loop {
        let others = reached(&sizes);
        if !add_frames(&mut sizes, &others, operators) {
            return sizes;
        }
    }
}

/// All trees of these operators that are gathered for the groups that are marked.
pub fn gathered_sizes(groups: usize, marked: &[usize], operators: &[Operator]) -> Sizes {
    let mut sizes = tree_sizes(groups, marked, operators);
    let unmarked: Vec<usize> = (0..groups).filter(|group| !marked.contains(group)).collect();
    let others = reached(&tree_sizes(groups, &unmarked, operators));
    while add_frames(&mut sizes, &others, operators) {}
    sizes
}
