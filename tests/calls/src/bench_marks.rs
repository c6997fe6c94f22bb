//! Marking as a whole process.

use crate::{compare, keep, BAR, MARKS_BAR, PROGRAM_RUNS};
use reference::compact::gather;
use reference::random::Random;
use reference::shape::{difference, padded, scrambled, union, Shape};
use reference::sheet::{print_tree, Sheet, SHEET_NODES};
use reference::tree::MAXIMUM_NODES;
use std::path::{Path, PathBuf};
use std::process::Command;

/// A question, a drawing and the line that is due.
type Marked = (Sheet, Vec<u16>, &'static str);

/// A question of 255 nodes, 8 groups and 2 marks that is not gathered, and a drawing of 8,191 nodes that is right.
fn largest(random: &mut Random) -> Marked {
    let framed = (3..=8).fold(union(&[1], &[2]), |tree, group| match group % 2 {
        0 => union(&tree, &[group]),
        _ => difference(&tree, &[group]),
    });
    let tree = padded(&scrambled(&framed, random), SHEET_NODES);
    let question = Sheet { tree, lifts: Vec::new(), marks: vec![1, 2] };
    let (gathered, _) = gather(&question.tree, &question.marks).expect("a gathered tree");
    let half = (MAXIMUM_NODES - 2 - gathered.len()) / 2;
    let half = half - (half + 1) % 2;
    let idle = Shape::mixed().tree(half.div_ceil(2), &[3, 4, 5, 6, 7, 8], random);
    let drawing = padded(&union(&difference(&idle, &idle), &gathered), MAXIMUM_NODES);
    assert!(question.tree.len() == SHEET_NODES && drawing.len() == MAXIMUM_NODES);
    (question, drawing, "MARK\t0\n")
}

/// 01's example and the tree of its key.
fn example() -> Marked {
    let tree = difference(&union(&difference(&difference(&[1], &[2]), &[3]), &[4]), &[5]);
    let holder_with_5 = union(&union(&[2], &[3]), &[5]);
    let drawing = union(&difference(&[1], &holder_with_5), &difference(&[4], &[5]));
    (Sheet { tree, lifts: vec![(0, 2)], marks: vec![2, 3] }, drawing, "MARK\t0\n")
}

/// Runs a mark program once.
fn run_program(program: &Path, names: &[PathBuf]) -> Vec<u8> {
    let output = Command::new(program).args(names).output().expect("the program starts");
    assert!(output.status.success());
    output.stdout
}

fn bench_mark(name: &str, bar: f64, names: &[PathBuf], line: &str, programs: [&Path; 2]) {
    for program in programs {
        assert_eq!(String::from_utf8_lossy(&run_program(program, names)), line, "{}", program.display());
    }
    let [program, own] = programs;
    compare(name, bar, PROGRAM_RUNS, &mut || keep(run_program(program, names)), &mut || keep(run_program(own, names)));
}

/// The files are written beside the reference's own program.
pub fn bench_marks(program: &Path, own: &Path, random: &mut Random) {
    bench_mark("mark: no files (the start of a process)", BAR, &[], "NO\t10\t1\t0\n", [program, own]);
    let names = ["bench.question", "bench.candidate"].map(|name| own.with_file_name(name));
    let pairs = [("mark: the example", example()), ("mark: 255 nodes, a drawing of 8,191 nodes", largest(random))];
    for (name, (question, drawing, line)) in pairs {
        std::fs::write(&names[0], question.print()).expect("the question is written");
        std::fs::write(&names[1], print_tree(&drawing)).expect("the drawing is written");
        bench_mark(name, MARKS_BAR, &names, line, [program, own]);
    }
}
