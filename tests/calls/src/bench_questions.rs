//! `tree_at` and `index_of` beside a look-up in the reference's list, and the whole list as a process.

use crate::{
    compare, keep, run_program, CALL_RUNS, INDEX_OF_BAR, NAME_WIDTH, PROGRAM_RUNS, QUESTIONS_BAR, TREE_AT_BAR,
};
use calls::library;
use reference::calls::{index_of_call, tree_at_call};
use reference::questions::{all, MOST_ENTRIES};
use std::path::Path;

/// Each run has all trees by their indices, or all indices by their trees. A library from before request 10 has neither
/// call.
pub fn bench_calls() {
    if !library::HAS_QUESTIONS {
        println!("{:<NAME_WIDTH$} not in this library", "tree_at, index_of");
        return;
    }
    let questions = all();
    let (mut entries, mut own) = ([0; MOST_ENTRIES], [0; MOST_ENTRIES]);
    for (index, question) in questions.iter().enumerate() {
        let answers = (library::tree_at(index, &mut entries), tree_at_call(index, &mut own));
        assert!(answers.0 == answers.1 && entries == own);
        assert_eq!(library::index_of(question), index_of_call(question));
    }
    let mut verified = || (0..questions.len()).for_each(|index| keep(library::tree_at(index, &mut entries)));
    let mut reference = || (0..questions.len()).for_each(|index| keep(tree_at_call(index, &mut own)));
    compare("tree_at: all 3,477", TREE_AT_BAR, CALL_RUNS, &mut verified, &mut reference);
    let mut verified = || questions.iter().for_each(|question| keep(library::index_of(question)));
    let mut reference = || questions.iter().for_each(|question| keep(index_of_call(question)));
    compare("index_of: all 3,477", INDEX_OF_BAR, CALL_RUNS, &mut verified, &mut reference);
}

/// What the program prints without an argument.
pub fn bench_list(program: &Path, own: &Path) {
    let name = "questions: the whole list";
    if run_program(program, &[]) == run_program(own, &[]) {
        let run = |program: &Path| keep(run_program(program, &[]));
        compare(name, QUESTIONS_BAR, PROGRAM_RUNS, &mut || run(program), &mut || run(own));
    } else {
        println!("{name:<NAME_WIDTH$} another list");
    }
}
