//! The reference behind the names that the verified static library exports, to try the tests with.
//! It gathers with the compact builder, so that every tree is the verified one's.
//! A slice passes as a pointer and then a length.

use reference::calls;
use std::slice::{from_raw_parts, from_raw_parts_mut};

/// # Safety
/// Each pointer leads to as many numbers as the length after it says, and no two meet.
#[no_mangle]
pub unsafe extern "C" fn lift_call(
    tree: *const u16,
    tree_length: usize,
    position: usize,
    levels: usize,
    out: *mut u16,
    out_length: usize,
    answer: *mut u32,
    answer_length: usize,
) {
    let (tree, out) = (from_raw_parts(tree, tree_length), from_raw_parts_mut(out, out_length));
    let numbers = calls::lift_call(tree, position, levels, out);
    from_raw_parts_mut(answer, answer_length).copy_from_slice(&numbers);
}

/// # Safety
/// As for `lift_call`.
#[no_mangle]
pub unsafe extern "C" fn lift_with_call(
    tree: *const u16,
    tree_length: usize,
    position: usize,
    levels: usize,
    out: *mut u16,
    out_length: usize,
    signs: *const u8,
    signs_length: usize,
    lengths: *const u8,
    lengths_length: usize,
    answer: *mut u32,
    answer_length: usize,
) {
    let (tree, out) = (from_raw_parts(tree, tree_length), from_raw_parts_mut(out, out_length));
    let (signs, lengths) = (from_raw_parts(signs, signs_length), from_raw_parts(lengths, lengths_length));
    let numbers = calls::lift_with_call(tree, position, levels, out, signs, lengths);
    from_raw_parts_mut(answer, answer_length).copy_from_slice(&numbers);
}

/// # Safety
/// As for `lift_call`.
#[no_mangle]
pub unsafe extern "C" fn gather_call(
    tree: *const u16,
    tree_length: usize,
    marks: *const u16,
    marks_length: usize,
    out: *mut u16,
    out_length: usize,
    answer: *mut u32,
    answer_length: usize,
) {
    let (tree, marks) = (from_raw_parts(tree, tree_length), from_raw_parts(marks, marks_length));
    let numbers = calls::compact_gather_call(tree, marks, from_raw_parts_mut(out, out_length));
    from_raw_parts_mut(answer, answer_length).copy_from_slice(&numbers);
}

/// # Safety
/// As for `lift_call`.
#[no_mangle]
pub unsafe extern "C" fn encode_call(
    tree: *const u16,
    tree_length: usize,
    out: *mut u16,
    out_length: usize,
    answer: *mut u32,
    answer_length: usize,
) {
    let numbers = calls::encode_call(from_raw_parts(tree, tree_length), from_raw_parts_mut(out, out_length));
    from_raw_parts_mut(answer, answer_length).copy_from_slice(&numbers);
}

/// # Safety
/// As for `lift_call`.
#[no_mangle]
pub unsafe extern "C" fn play_call(
    code: *const u16,
    code_length: usize,
    patch: *const u16,
    patch_length: usize,
    lamps: *mut u8,
    lamps_length: usize,
) -> u16 {
    let (code, patch) = (from_raw_parts(code, code_length), from_raw_parts(patch, patch_length));
    calls::play_call(code, patch, from_raw_parts_mut(lamps, lamps_length))
}

/// # Safety
/// As for `lift_call`.
#[no_mangle]
pub unsafe extern "C" fn older_encode_call(
    tree: *const u16,
    tree_length: usize,
    out: *mut u16,
    out_length: usize,
    answer: *mut u32,
    answer_length: usize,
) {
    let numbers = calls::older_encode_call(from_raw_parts(tree, tree_length), from_raw_parts_mut(out, out_length));
    from_raw_parts_mut(answer, answer_length).copy_from_slice(&numbers);
}

/// # Safety
/// As for `lift_call`.
#[no_mangle]
pub unsafe extern "C" fn older_play_call(
    code: *const u16,
    code_length: usize,
    patch: *const u16,
    patch_length: usize,
    lamps: *mut u8,
    lamps_length: usize,
) -> u16 {
    let (code, patch) = (from_raw_parts(code, code_length), from_raw_parts(patch, patch_length));
    calls::older_play_call(code, patch, from_raw_parts_mut(lamps, lamps_length))
}

/// # Safety
/// As for `lift_call`.
#[no_mangle]
pub unsafe extern "C" fn tree_at_call(
    index: usize,
    entries: *mut u16,
    entries_length: usize,
    answer: *mut u32,
    answer_length: usize,
) {
    let numbers = calls::tree_at_call(index, from_raw_parts_mut(entries, entries_length));
    from_raw_parts_mut(answer, answer_length).copy_from_slice(&numbers);
}

/// # Safety
/// As for `lift_call`.
#[no_mangle]
pub unsafe extern "C" fn index_of_call(list: *const u16, list_length: usize, answer: *mut u32, answer_length: usize) {
    let numbers = calls::index_of_call(from_raw_parts(list, list_length));
    from_raw_parts_mut(answer, answer_length).copy_from_slice(&numbers);
}
