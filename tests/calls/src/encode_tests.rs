//! `encode`: what is tried of both coders, and each operator's code by hand.

use crate::coders::Coder;
use calls::library;
use reference::calls::{encode_call, CODE_BUFFER};
use reference::coder::{ADD, BOTH, CUT, LOAD};
use reference::report::Report;
use reference::tree::{DIFFERENCE, INTERSECTION, UNION};

const CODER: Coder = Coder {
    name: "encode",
    library: library::encode,
    reference: encode_call,
    buffer: CODE_BUFFER,
    difference: |left, right| vec![LOAD, 0, left, 0, LOAD, 1, right, 0, CUT, 0, 0, 1],
};

/// Each operator alone, and with another one as its left and as its right operand.
fn operators(report: &mut Report) {
    let all = [(UNION, ADD), (DIFFERENCE, CUT), (INTERSECTION, BOTH)];
    for (operator, kind) in all {
        CODER.coded(&[1, 2, operator], &[LOAD, 0, 1, 0, LOAD, 1, 2, 0, kind, 0, 0, 1], report);
        for (other, other_kind) in all {
            let below = [LOAD, 0, 1, 0, LOAD, 1, 2, 0, other_kind, 0, 0, 1, LOAD, 1, 3, 0];
            CODER.coded(&[1, 2, other, 3, operator], &[&below[..], &[kind, 0, 0, 1]].concat(), report);
            CODER.coded(&[3, 1, 2, other, operator], &[&below[..], &[kind, 0, 1, 0]].concat(), report);
        }
    }
}

pub fn run(report: &mut Report) {
    CODER.run(6000, 100, report);
    operators(report);
}
