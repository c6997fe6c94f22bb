//! `play`: what is tried of both players, and each kind's lamps by hand.

use crate::faults::Fault;
use crate::players::{Input, Player};
use calls::library;
use reference::calls::play_call;
use reference::coder::{ADD, BOTH, CUT, LOAD};
use reference::device::Device;
use reference::player::{LAMP_BYTES, LAST_LAMP, MAXIMUM_PAIRS};
use reference::random::Random;
use reference::report::Report;
use reference::tree::{LAST_GROUP, MAXIMUM_NODES};

const PLAYER: Player = Player {
    name: "play",
    device: Device::Newer,
    library: library::play,
    reference: play_call,
    most_instructions: MAXIMUM_NODES,
    operands: [0, 0, 1],
    end: &[],
    random_code,
    faults: &FAULTS,
};

/// Instructions in no order that means anything, with all registers.
fn random_code(count: usize, groups: &[u16], random: &mut Random) -> Vec<u16> {
    let register = |random: &mut Random| random.below(13) as u16;
    let mut code = Vec::new();
    for _ in 0..count {
        code.extend(match random.pick(&[LOAD, ADD, CUT, BOTH]) {
            LOAD => [LOAD, register(random), random.pick(groups), 0],
            kind => [kind, register(random), register(random), register(random)],
        });
    }
    code
}

const FAULTS: [Fault<Input>; 22] = [
    (21, |input| input.bytes = LAMP_BYTES - 1),
    (21, |input| input.bytes = 0),
    (22, |input| input.code.clear()),
    (22, |input| input.code = [LOAD, 0, 1, 0].repeat(MAXIMUM_NODES + 1)),
    (22, |input| input.code.truncate(7)),
    (23, |input| input.code[0] = 0),
    (23, |input| input.code[0] = 5),
    (23, |input| input.code[8] = 5),
    (23, |input| input.code[1] = 13),
    (23, |input| input.code[2] = 0),
    (23, |input| input.code[2] = LAST_GROUP + 1),
    (23, |input| input.code[3] = 1),
    (23, |input| input.code[10] = 13),
    (23, |input| input.code[8..].copy_from_slice(&[BOTH, 13, 0, 1])),
    (23, |input| input.code[8..].copy_from_slice(&[BOTH, 0, 13, 1])),
    (23, |input| input.code[8..].copy_from_slice(&[BOTH, 0, 0, 13])),
    (24, |input| input.patch.extend([1, 1, 1])),
    (24, |input| input.patch = [1, 1].repeat(MAXIMUM_PAIRS + 1)),
    (25, |input| input.patch[2] = 0),
    (25, |input| input.patch[2] = LAST_GROUP + 1),
    (25, |input| input.patch[3] = 0),
    (25, |input| input.patch[3] = 513),
];

/// Lamps in group 1 alone, in group 2 alone, in both and in neither: what each kind lights of them, in either order of
/// its operands. No other number is a kind.
fn kinds(report: &mut Report) {
    let patch = [1, 1, 1, 64, 2, 64, 2, 65, 1, LAST_LAMP, 2, LAST_LAMP, 3, 2];
    let code = |kind: u16, first: u16, second: u16| [LOAD, 3, 1, 0, LOAD, 7, 2, 0, kind, 0, first, second];
    let union: &[u16] = &[1, 64, 65, LAST_LAMP];
    let both: &[u16] = &[64, LAST_LAMP];
    let lit: [(u16, u16, u16, &[u16]); 9] = [
        (ADD, 3, 7, union),
        (ADD, 7, 3, union),
        (CUT, 3, 7, &[1]),
        (CUT, 7, 3, &[65]),
        (BOTH, 3, 7, both),
        (BOTH, 7, 3, both),
        (BOTH, 3, 3, &[1, 64, LAST_LAMP]),
        (BOTH, 3, 12, &[]),
        (BOTH, 12, 7, &[]),
    ];
    for (kind, first, second, lit) in lit {
        PLAYER.lights("kinds", &code(kind, first, second), &patch, |lamp| lit.contains(&lamp), report);
    }
    for kind in [0, BOTH + 1, BOTH + 2, 256 + BOTH, u16::MAX] {
        for [target, first, second] in [[0, 0, 0], [0, 3, 7], [12, 12, 12], [0, 1, 0]] {
            PLAYER.no_code("no kind", &[LOAD, 3, 1, 0, kind, target, first, second], &patch, report);
        }
    }
}

pub fn run(report: &mut Report) {
    PLAYER.run(5000, 1500, report);
    kinds(report);
}
