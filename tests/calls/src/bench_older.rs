//! Code, play and keys of the older player.

use crate::{any_tree, compare, done_lifts, keep, run_program, sheet};
use crate::{CALL_RUNS, NAME_WIDTH, OLDER_BAR, PROGRAM_RUNS, SHEET_LIFTS};
use calls::library;
use reference::calls::{older_encode_call, older_play_call, OLDER_CODE_BUFFER};
use reference::older_coder::encode;
use reference::player::{LAMP_BYTES, LAST_LAMP, MAXIMUM_PAIRS};
use reference::random::Random;
use reference::sheet::SHEET_NODES;
use reference::tree::MAXIMUM_NODES;
use std::path::Path;

/// Keys as whole processes.
pub fn bench_keys(program: &Path, own: &Path, random: &mut Random) {
    let tree = any_tree(SHEET_NODES, 8, random);
    let lifts = done_lifts(&tree, SHEET_LIFTS, 2 * SHEET_NODES, random);
    let sheets = [
        ("older key: 255 nodes", sheet(&tree, &[], &[])),
        ("older key: 255 nodes, 50 lifts", sheet(&tree, &lifts, &[])),
    ];
    for (name, sheet) in sheets {
        if run_program(program, &sheet) != run_program(own, &sheet) {
            println!("{name:<NAME_WIDTH$} another key");
            continue;
        }
        let run = |program: &Path| keep(run_program(program, &sheet));
        compare(name, OLDER_BAR, PROGRAM_RUNS, &mut || run(program), &mut || run(own));
    }
}

fn bench_encode(tree: &[u16]) {
    let (mut out, mut own) = (vec![0; OLDER_CODE_BUFFER], vec![0; OLDER_CODE_BUFFER]);
    let answers = (library::older_encode(tree, &mut out), older_encode_call(tree, &mut own));
    assert!(answers.0 == answers.1 && out == own);
    let mut verified = || keep(library::older_encode(tree, &mut out));
    let mut reference = || keep(older_encode_call(tree, &mut own));
    compare("older encode: 8,191 nodes", OLDER_BAR, CALL_RUNS, &mut verified, &mut reference);
}

fn bench_play(name: &str, code: &[u16], patch: &[u16]) {
    let (mut lamps, mut own) = ([0; LAMP_BYTES], [0; LAMP_BYTES]);
    let numbers = (library::older_play(code, patch, &mut lamps), older_play_call(code, patch, &mut own));
    assert!(numbers == (0, 0) && lamps == own);
    let mut verified = || keep(library::older_play(code, patch, &mut lamps));
    let mut reference = || keep(older_play_call(code, patch, &mut own));
    compare(name, OLDER_BAR, CALL_RUNS, &mut verified, &mut reference);
}

/// A library from before request 8 has neither call.
pub fn bench_code(random: &mut Random) {
    if !library::HAS_OLDER {
        println!("{:<NAME_WIDTH$} not in this library", "older encode, older play");
        return;
    }
    let tree = any_tree(MAXIMUM_NODES, 1000, random);
    bench_encode(&tree);
    let code = encode(&tree).expect("a tree");
    let last_lamp = usize::from(LAST_LAMP);
    for pairs in [100, MAXIMUM_PAIRS] {
        let pair = |_| [random.between(1, 1000) as u16, random.between(1, last_lamp) as u16];
        let patch: Vec<u16> = (0..pairs).flat_map(pair).collect();
        bench_play(&format!("older play: 8,192 instructions, {pairs} pairs"), &code, &patch);
    }
}
