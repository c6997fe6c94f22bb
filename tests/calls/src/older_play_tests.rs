//! `older_play`: what is tried of both players; by hand what each kind changes, where SHOW stands, the unused numbers
//! and the registers.

use crate::faults::Fault;
use crate::inputs::same;
use crate::players::{Input, Player};
use calls::library;
use reference::calls::older_play_call;
use reference::coder::{ADD, BOTH, CUT, INSTRUCTION_NUMBERS, LOAD, REGISTERS};
use reference::device::Device;
use reference::older_coder::SHOW;
use reference::older_player::MAXIMUM_INSTRUCTIONS;
use reference::player::{LAMP_BYTES, LAST_LAMP, MAXIMUM_PAIRS};
use reference::random::Random;
use reference::report::Report;
use reference::tree::LAST_GROUP;

const PLAYER: Player = Player {
    name: "older play",
    device: Device::Older,
    library: library::older_play,
    reference: older_play_call,
    most_instructions: MAXIMUM_INSTRUCTIONS,
    operands: [0, 1, 0],
    end: &[SHOW, 0, 0, 0],
    random_code,
    faults: &FAULTS,
};

const OPERATORS: [u16; 3] = [ADD, CUT, BOTH];

/// Instructions in no order that means anything, with all registers, and SHOW of any as the last.
fn random_code(count: usize, groups: &[u16], random: &mut Random) -> Vec<u16> {
    let register = |random: &mut Random| random.below(REGISTERS.into()) as u16;
    let mut code = Vec::new();
    for _ in 1..count {
        code.extend(match random.pick(&[LOAD, ADD, CUT, BOTH]) {
            LOAD => [LOAD, register(random), random.pick(groups), 0],
            kind => [kind, register(random), register(random), 0],
        });
    }
    code.extend([SHOW, register(random), 0, 0]);
    code
}

/// The code is LOAD, LOAD, CUT and SHOW. No fault undoes another.
const FAULTS: [Fault<Input>; 35] = [
    (21, |input| input.bytes = LAMP_BYTES - 1),
    (21, |input| input.bytes = 0),
    (22, |input| input.code.clear()),
    (22, |input| input.code = [&[LOAD, 0, 1, 0].repeat(MAXIMUM_INSTRUCTIONS)[..], &[SHOW, 0, 0, 0]].concat()),
    (22, |input| input.code = [LOAD, 0, 1, 0].repeat(MAXIMUM_INSTRUCTIONS + 1)),
    (22, |input| input.code.truncate(3)),
    (22, |input| input.code.truncate(input.code.len() - 1)),
    (22, |input| input.code.extend([0, 0])),
    (23, |input| input.code.truncate(8)),
    (23, |input| input.code.extend([SHOW, 0, 0, 0])),
    (23, |input| input.code[0..4].copy_from_slice(&[SHOW, 0, 0, 0])),
    (23, |input| input.code[8..12].copy_from_slice(&[SHOW, 0, 0, 0])),
    (23, |input| input.code[0] = 0),
    (23, |input| input.code[0] = 6),
    (23, |input| input.code[1] = 13),
    (23, |input| input.code[2] = 0),
    (23, |input| input.code[2] = LAST_GROUP + 1),
    (23, |input| input.code[3] = 1),
    (23, |input| input.code[8] = 0),
    (23, |input| input.code[8] = 6),
    (23, |input| input.code[9] = 13),
    (23, |input| input.code[10] = 13),
    (23, |input| input.code[11] = 1),
    (23, |input| input.code[12] = 0),
    (23, |input| input.code[12] = 6),
    (23, |input| input.code[13] = 13),
    (23, |input| input.code[14] = 1),
    (23, |input| input.code[15] = 1),
    (24, |input| input.patch.truncate(5)),
    (24, |input| input.patch.extend([1, 1, 1])),
    (24, |input| input.patch = [1, 1].repeat(MAXIMUM_PAIRS + 1)),
    (25, |input| input.patch[2] = 0),
    (25, |input| input.patch[2] = LAST_GROUP + 1),
    (25, |input| input.patch[3] = 0),
    (25, |input| input.patch[3] = 513),
];

/// Lamp 1 is in group 1 alone, 65 in group 2 alone, 64 and 512 are in both.
const PATCH: [u16; 12] = [1, 1, 1, 64, 2, 64, 2, 65, 1, LAST_LAMP, 2, LAST_LAMP];

fn lights(name: &str, code: &[u16], lit: &[u16], report: &mut Report) {
    PLAYER.lights(name, code, &PATCH, |lamp| lit.contains(&lamp), report);
}

fn no_code(name: &str, code: &[u16], report: &mut Report) {
    PLAYER.no_code(name, code, &PATCH, report);
}

/// The first register is changed by the second, which keeps its own; other registers are empty.
fn kinds(report: &mut Report) {
    let one: &[u16] = &[1, 64, LAST_LAMP];
    let two: &[u16] = &[64, 65, LAST_LAMP];
    let union: &[u16] = &[1, 64, 65, LAST_LAMP];
    let both: &[u16] = &[64, LAST_LAMP];
    // Group 1 is in register 3, group 2 in register 7; what is then in 3, in 7 and in 12.
    let changes: [(u16, u16, u16, [&[u16]; 3]); 17] = [
        (ADD, 3, 7, [union, two, &[]]),
        (ADD, 7, 3, [one, union, &[]]),
        (CUT, 3, 7, [&[1], two, &[]]),
        (CUT, 7, 3, [one, &[65], &[]]),
        (BOTH, 3, 7, [both, two, &[]]),
        (BOTH, 7, 3, [one, both, &[]]),
        (ADD, 3, 3, [one, two, &[]]),
        (CUT, 3, 3, [&[], two, &[]]),
        (BOTH, 3, 3, [one, two, &[]]),
        (ADD, 12, 7, [one, two, two]),
        (CUT, 12, 7, [one, two, &[]]),
        (BOTH, 12, 7, [one, two, &[]]),
        (ADD, 3, 12, [one, two, &[]]),
        (CUT, 3, 12, [one, two, &[]]),
        (BOTH, 3, 12, [&[], two, &[]]),
        (ADD, 0, 3, [one, two, &[]]),
        (ADD, 12, 12, [one, two, &[]]),
    ];
    for (kind, first, second, lit) in changes {
        for (register, lit) in [3, 7, 12].into_iter().zip(lit) {
            let code = [LOAD, 3, 1, 0, LOAD, 7, 2, 0, kind, first, second, 0, SHOW, register, 0, 0];
            lights("kinds", &code, lit, report);
        }
    }
}

/// SHOW as the last instruction and there only.
fn shows(report: &mut Report) {
    let load = [LOAD, 0, 1, 0];
    let show = [SHOW, 0, 0, 0];
    lights("SHOW alone", &show, &[], report);
    lights("SHOW alone", &[SHOW, 12, 0, 0], &[], report);
    for register in 0..REGISTERS {
        for shown in 0..REGISTERS {
            let lit: &[u16] = if shown == register { &[1, 64, LAST_LAMP] } else { &[] };
            lights("SHOW of each register", &[LOAD, register, 1, 0, SHOW, shown, 0, 0], lit, report);
        }
    }
    let elsewhere: [&[[u16; INSTRUCTION_NUMBERS]]; 10] = [
        &[load],
        &[load, [ADD, 0, 0, 0]],
        &[show, load],
        &[show, show],
        &[show, load, show],
        &[load, show, show],
        &[load, show, load],
        &[load, show, load, show],
        &[load, show, [ADD, 0, 0, 0], show],
        &[load, show, [ADD, 0, 0, 0]],
    ];
    for code in elsewhere {
        no_code("SHOW elsewhere or missing", &code.concat(), report);
    }
}

/// Each kind's unused numbers, and what is no kind, before the last instruction and as the last.
fn unused_and_kinds(report: &mut Report) {
    let end = [SHOW, 0, 0, 0];
    for number in [1, 2, 5, 12, 13, LAST_GROUP, u16::MAX] {
        no_code("unused number", &[&[LOAD, 0, 1, number], &end[..]].concat(), report);
        for kind in OPERATORS {
            no_code("unused number", &[&[LOAD, 0, 1, 0, kind, 0, 1, number], &end[..]].concat(), report);
        }
        for unused in [[number, 0], [0, number], [number, number]] {
            no_code("unused number", &[&[LOAD, 0, 1, 0, SHOW, 0][..], &unused].concat(), report);
        }
    }
    for kind in [0, SHOW + 1, SHOW + 2, 13, 256 + SHOW, 256 + LOAD, u16::MAX] {
        for [first, second] in [[0, 0], [0, 1], [1, 0], [12, 12]] {
            no_code("no kind", &[&[LOAD, 0, 1, 0, kind, first, second, 0], &end[..]].concat(), report);
            no_code("no kind", &[LOAD, 0, 1, 0, kind, first, second, 0], report);
        }
    }
    for kind in [LOAD, ADD, CUT, BOTH] {
        no_code("another kind as the last", &[LOAD, 0, 1, 0, kind, 0, 1, 0], report);
    }
}

/// Registers 12 and 13, and larger numbers, in each place.
fn registers(report: &mut Report) {
    let (load, end) = ([LOAD, 0, 1, 0], [SHOW, 0, 0, 0]);
    for register in [12, 13, 14, 256, 256 + 12, u16::MAX] {
        let mut codes = vec![[LOAD, register, 1, 0].to_vec(), vec![]];
        codes.extend(OPERATORS.iter().flat_map(|&kind| [vec![kind, register, 0, 0], vec![kind, 0, register, 0]]));
        let mut codes: Vec<Vec<u16>> = codes.iter().map(|code| [&load[..], code, &end].concat()).collect();
        codes[1] = [&load[..], &[SHOW, register, 0, 0]].concat();
        for code in codes {
            let input = Input { code, patch: PATCH.to_vec(), bytes: LAMP_BYTES };
            let (answered, _) = PLAYER.compare("register", &input, report);
            let due = if register < REGISTERS { 0 } else { 23 };
            report.test(&format!("older play, {:?} by hand", input.code), same("number", &answered, &due));
        }
    }
}

/// 22 by hand: every length about four instructions and about the most, of code that is good as far as it goes.
fn lengths(report: &mut Report) {
    let most = MAXIMUM_INSTRUCTIONS * INSTRUCTION_NUMBERS;
    for length in (0..=20).chain(most - 5..=most + 9) {
        let mut code: Vec<u16> = [LOAD, 0, 1, 0].into_iter().cycle().take(length).collect();
        let instructions = length / INSTRUCTION_NUMBERS;
        if instructions > 0 {
            let last = (instructions - 1) * INSTRUCTION_NUMBERS;
            code[last..last + INSTRUCTION_NUMBERS].copy_from_slice(&[SHOW, 0, 0, 0]);
        }
        let good = length % INSTRUCTION_NUMBERS == 0 && (1..=MAXIMUM_INSTRUCTIONS).contains(&instructions);
        let input = Input { code, patch: PATCH.to_vec(), bytes: LAMP_BYTES };
        let (answered, _) = PLAYER.compare("length", &input, report);
        let due = if good { 0 } else { 22 };
        report.test(&format!("older play, {length} numbers by hand"), same("number", &answered, &due));
    }
}

pub fn run(report: &mut Report) {
    PLAYER.run(3000, 1000, report);
    for tests in [kinds, shows, unused_and_kinds, registers, lengths] {
        tests(report);
    }
}
