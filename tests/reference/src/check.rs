//! Checks of a gathering's answer, where 01 leaves the gathered tree free.

use crate::gather::{gather, holder, numbered, ROWS};
use crate::tree::{groups, select, without_intersection, Nodes};

/// A tree's table: bit r of the 256 is its value in row r.
type Table = [u64; ROWS / 64];

/// The table of the group at a place.
fn variable(place: usize) -> Table {
    let mut table = Table::default();
    for row in (0..ROWS).filter(|row| row >> place & 1 == 1) {
        table[row / 64] |= 1 << (row % 64);
    }
    table
}

/// The tree's table over `groups`, all rows at once.
pub fn table(tree: &[u16], groups: &[u16]) -> Table {
    let variables: Vec<Table> = (0..groups.len()).map(variable).collect();
    select(&numbered(tree, groups), |place| variables[usize::from(place) - 1])
}

pub fn ensure(holds: bool, fault: &str) -> Result<(), String> {
    if holds {
        Ok(())
    } else {
        Err(fault.to_string())
    }
}

/// What 01 asks of a gathered tree that is free; of a tree without `I` it has none either (the library's promise).
pub fn gathered_tree(given: &[u16], marks: &[u16], result: &[u16], position: usize) -> Result<(), String> {
    let nodes = Nodes::parse(result).ok_or("the gathered list is not a tree of 1 to 8,191 nodes")?;
    let allowed = groups(given);
    ensure(groups(result).iter().all(|group| allowed.contains(group)), "a group that is not in the given tree")?;
    let holder = holder(&nodes, marks).ok_or("the tree is not gathered")?;
    ensure(holder == position, &format!("the holder is at {holder}, not at {position}"))?;
    let added = without_intersection(given) && !without_intersection(result);
    ensure(!added, "the gathered tree of one without I has an I")?;
    ensure(table(given, &allowed) == table(result, &allowed), "the gathered tree is not equivalent")
}

/// The answer of a gathering: `result` is the tree with its holder's position, or the refusal.
pub fn gathering(given: &[u16], marks: &[u16], result: Result<(&[u16], usize), u16>) -> Result<(), String> {
    match (gather(given, marks), result) {
        (Err(expected), Err(number)) => ensure(expected == number, &format!("refused with {number}, not {expected}")),
        (Err(expected), Ok(_)) => Err(format!("done, where {expected} is due")),
        (Ok(_), Err(number)) => Err(format!("refused with {number}, where a gathered tree exists")),
        (Ok((expected, _)), Ok((tree, position))) => {
            let already = expected == given;
            ensure(!already || tree == given, "a gathered tree came back changed")?;
            gathered_tree(given, marks, tree, position)
        }
    }
}
