//! The boundary: a slice passes as a pointer and then a length, a number as itself.

use reference::calls::{EncodeAnswer, GatherAnswer, IndexOfAnswer, LiftAnswer, TreeAtAnswer};
use reference::table::School;

mod exported {
    extern "C" {
        pub fn lift_call(
            tree: *const u16,
            tree_length: usize,
            position: usize,
            levels: usize,
            out: *mut u16,
            out_length: usize,
            answer: *mut u32,
            answer_length: usize,
        );
        #[cfg(has_lift_with)]
        pub fn lift_with_call(
            tree: *const u16,
            tree_length: usize,
            position: usize,
            levels: usize,
            out: *mut u16,
            out_length: usize,
            signs: *const u8,
            signs_length: usize,
            lengths: *const u8,
            lengths_length: usize,
            answer: *mut u32,
            answer_length: usize,
        );
        pub fn gather_call(
            tree: *const u16,
            tree_length: usize,
            marks: *const u16,
            marks_length: usize,
            out: *mut u16,
            out_length: usize,
            answer: *mut u32,
            answer_length: usize,
        );
        pub fn encode_call(
            tree: *const u16,
            tree_length: usize,
            out: *mut u16,
            out_length: usize,
            answer: *mut u32,
            answer_length: usize,
        );
        pub fn play_call(
            code: *const u16,
            code_length: usize,
            patch: *const u16,
            patch_length: usize,
            lamps: *mut u8,
            lamps_length: usize,
        ) -> u16;
        #[cfg(has_older)]
        pub fn older_encode_call(
            tree: *const u16,
            tree_length: usize,
            out: *mut u16,
            out_length: usize,
            answer: *mut u32,
            answer_length: usize,
        );
        #[cfg(has_older)]
        pub fn older_play_call(
            code: *const u16,
            code_length: usize,
            patch: *const u16,
            patch_length: usize,
            lamps: *mut u8,
            lamps_length: usize,
        ) -> u16;
        #[cfg(has_questions)]
        pub fn tree_at_call(
            index: usize,
            entries: *mut u16,
            entries_length: usize,
            answer: *mut u32,
            answer_length: usize,
        );
        #[cfg(has_questions)]
        pub fn index_of_call(list: *const u16, list_length: usize, answer: *mut u32, answer_length: usize);
    }
}

/// What an answer's numbers hold before the call, so that an unwritten one is seen.
const UNWRITTEN: u32 = 0xdead_beef;

pub fn lift(tree: &[u16], position: usize, levels: usize, out: &mut [u16]) -> LiftAnswer {
    let mut answer = [UNWRITTEN; 4];
    unsafe {
        exported::lift_call(
            tree.as_ptr(),
            tree.len(),
            position,
            levels,
            out.as_mut_ptr(),
            out.len(),
            answer.as_mut_ptr(),
            answer.len(),
        );
    }
    answer
}

/// A school's table held by value: its rows of signs, and the words' lengths.
#[derive(Clone)]
pub struct Rows {
    pub signs: Vec<u8>,
    pub lengths: Vec<u8>,
}

impl Rows {
    pub fn new(school: &School) -> Rows {
        let (signs, lengths) = school.rows();
        Rows { signs, lengths }
    }
}

/// Whether the library has `lift_with_call`.
pub const HAS_LIFT_WITH: bool = cfg!(has_lift_with);

#[cfg(has_lift_with)]
pub fn lift_with(rows: &Rows, tree: &[u16], position: usize, levels: usize, out: &mut [u16]) -> LiftAnswer {
    let mut answer = [UNWRITTEN; 4];
    unsafe {
        exported::lift_with_call(
            tree.as_ptr(),
            tree.len(),
            position,
            levels,
            out.as_mut_ptr(),
            out.len(),
            rows.signs.as_ptr(),
            rows.signs.len(),
            rows.lengths.as_ptr(),
            rows.lengths.len(),
            answer.as_mut_ptr(),
            answer.len(),
        );
    }
    answer
}

/// A library without the call writes nothing.
#[cfg(not(has_lift_with))]
pub fn lift_with(_: &Rows, _: &[u16], _: usize, _: usize, _: &mut [u16]) -> LiftAnswer {
    [UNWRITTEN; 4]
}

pub fn gather(tree: &[u16], marks: &[u16], out: &mut [u16]) -> GatherAnswer {
    let mut answer = [UNWRITTEN; 3];
    unsafe {
        exported::gather_call(
            tree.as_ptr(),
            tree.len(),
            marks.as_ptr(),
            marks.len(),
            out.as_mut_ptr(),
            out.len(),
            answer.as_mut_ptr(),
            answer.len(),
        );
    }
    answer
}

pub fn encode(tree: &[u16], out: &mut [u16]) -> EncodeAnswer {
    let mut answer = [UNWRITTEN; 2];
    unsafe {
        exported::encode_call(
            tree.as_ptr(),
            tree.len(),
            out.as_mut_ptr(),
            out.len(),
            answer.as_mut_ptr(),
            answer.len(),
        );
    }
    answer
}

pub fn play(code: &[u16], patch: &[u16], lamps: &mut [u8]) -> u16 {
    unsafe {
        exported::play_call(code.as_ptr(), code.len(), patch.as_ptr(), patch.len(), lamps.as_mut_ptr(), lamps.len())
    }
}

/// Whether the library has `older_encode_call` and `older_play_call`.
pub const HAS_OLDER: bool = cfg!(has_older);

#[cfg(has_older)]
pub fn older_encode(tree: &[u16], out: &mut [u16]) -> EncodeAnswer {
    let mut answer = [UNWRITTEN; 2];
    unsafe {
        exported::older_encode_call(
            tree.as_ptr(),
            tree.len(),
            out.as_mut_ptr(),
            out.len(),
            answer.as_mut_ptr(),
            answer.len(),
        );
    }
    answer
}

#[cfg(has_older)]
pub fn older_play(code: &[u16], patch: &[u16], lamps: &mut [u8]) -> u16 {
    unsafe {
        exported::older_play_call(
            code.as_ptr(),
            code.len(),
            patch.as_ptr(),
            patch.len(),
            lamps.as_mut_ptr(),
            lamps.len(),
        )
    }
}

/// A library without the call writes nothing.
#[cfg(not(has_older))]
pub fn older_encode(_: &[u16], _: &mut [u16]) -> EncodeAnswer {
    [UNWRITTEN; 2]
}

#[cfg(not(has_older))]
pub fn older_play(_: &[u16], _: &[u16], _: &mut [u8]) -> u16 {
    u16::MAX
}

/// Whether the library has `tree_at_call` and `index_of_call`.
pub const HAS_QUESTIONS: bool = cfg!(has_questions);

#[cfg(has_questions)]
pub fn tree_at(index: usize, entries: &mut [u16]) -> TreeAtAnswer {
    let mut answer = [UNWRITTEN; 2];
    unsafe {
        exported::tree_at_call(index, entries.as_mut_ptr(), entries.len(), answer.as_mut_ptr(), answer.len());
    }
    answer
}

#[cfg(has_questions)]
pub fn index_of(list: &[u16]) -> IndexOfAnswer {
    let mut answer = [UNWRITTEN; 2];
    unsafe {
        exported::index_of_call(list.as_ptr(), list.len(), answer.as_mut_ptr(), answer.len());
    }
    answer
}

/// A library without the call writes nothing.
#[cfg(not(has_questions))]
pub fn tree_at(_: usize, _: &mut [u16]) -> TreeAtAnswer {
    [UNWRITTEN; 2]
}

#[cfg(not(has_questions))]
pub fn index_of(_: &[u16]) -> IndexOfAnswer {
    [UNWRITTEN; 2]
}
