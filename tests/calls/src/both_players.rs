//! The library's code of one tree for both players: played with the same patches it lights the same lamps, those that
//! the tree selects.

use crate::coders::complete;
use crate::inputs::{chains, code, leaves, numbers, same, MOST_LEAVES};
use crate::players::{pairs, random_patch};
use calls::library;
use reference::device::Device;
use reference::player::{index, lamp_bytes, LAMP_BYTES};
use reference::random::Random;
use reference::report::Report;
use reference::shape::{some_groups, Operators, Shape};
use reference::tree::{groups, select};

const PATCHES: usize = 3;

/// The number and the bytes of a play.
fn played(call: fn(&[u16], &[u16], &mut [u8]) -> u16, code: &[u16], patch: &[u16]) -> (u16, Vec<u8>) {
    let mut lamps = vec![0xa5; LAMP_BYTES];
    (call(code, patch, &mut lamps), lamps)
}

fn alike(name: &str, tree: &[u16], random: &mut Random, report: &mut Report) {
    let (newer, older) = (code(Device::Newer, tree), code(Device::Older, tree));
    for _ in 0..PATCHES {
        let patch = random_patch(pairs(random), &groups(tree), random);
        let contents = index(&patch);
        let selected = select(tree, |group| contents.get(&group).copied().unwrap_or_default());
        let due = (0, lamp_bytes(&selected).to_vec());
        let result = same("play", &played(library::play, &newer, &patch), &due)
            .and_then(|()| same("older play", &played(library::older_play, &older, &patch), &due));
        let text = numbers("tree", tree) + &numbers("patch", &patch);
        report.count(format!("both players: {name}"));
        report.saved_test(&format!("both players, {name}"), result, &[("txt", text.as_bytes())]);
    }
}

pub fn run(report: &mut Report) {
    let mut random = Random::new(17);
    for number in 0..1000 {
        let (name, leaves) =
            if number % 20 == 0 { ("8,191 nodes", MOST_LEAVES) } else { ("random", leaves(&mut random)) };
        let groups = some_groups(8, &mut random);
        let tree = Shape::any(Operators::All, &mut random).tree(leaves, &groups, &mut random);
        alike(name, &tree, &mut random, report);
    }
    chains().for_each(|tree| alike("chain", &tree, &mut random, report));
    alike("complete tree", &complete(MOST_LEAVES), &mut random, report);
}
