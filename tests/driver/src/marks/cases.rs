//! Pairs whose lines were worked out by hand from 01 and 02.

use super::pair::{File, Pair};
use crate::cases::{text, with_large_groups};

/// 01's example: ((1−2)−3 U 4)−5.
const EXAMPLE: &str = "G 1/G 2/D/G 3/D/G 4/U/G 5/D/L 0 2/K 2/K 3/E/";
/// 01's samples (vii) to (x); (vii) and (ix) are answered 19.
const SAMPLE_7: &str = "G 1/G 3/D/G 2/G 4/D/U/K 1/K 2/E/";
const SAMPLE_8: &str = "G 1/G 3/D/G 2/G 3/D/U/K 1/K 2/E/";
const SAMPLE_9: &str = "G 1/G 2/D/G 2/G 1/D/U/K 1/E/";
const SAMPLE_10: &str = "G 1/G 1/G 2/D/D/K 1/E/";
/// Nothing, with a mark.
const EMPTY_SET: &str = "G 1/G 2/D/G 1/D/K 2/E/";
/// 2, where the marked 1 adds nothing.
const IDLE_MARK: &str = "G 1/G 1/D/G 2/U/K 1/E/";
/// 1−3, where the marked 2 adds nothing.
const ONE_IDLE_OF_TWO: &str = "G 1/G 3/D/G 2/G 2/D/U/K 1/K 2/E/";
const ALL_MARKED: &str = "G 1/G 2/D/K 2/K 1/E/";
const NO_MARKS: &str = "G 1/G 2/D/E/";
/// (1−2)−3, whose lift leaves 1−(2 U 3), which is gathered.
const LIFTED_TO_GATHERED: &str = "G 1/G 2/D/G 3/D/L 0 1/K 2/K 3/E/";
/// 1 and 2, with `I` and without it; 1 marked, both marked or neither.
const BOTH: &str = "G 1/G 2/I/E/";
const BOTH_BY_DIFFERENCES: &str = "G 1/G 1/G 2/D/D/E/";
const BOTH_ONE_MARKED: &str = "G 1/G 2/I/K 1/E/";
const BOTH_ALL_MARKED: &str = "G 1/G 1/G 2/D/D/K 1/K 2/E/";
/// 1 and 2, or 3, with marks of 1 and 2.
const BOTH_OR_3: &str = "G 1/G 2/I/G 3/U/K 1/K 2/E/";
/// 1 and 3, or 2 and 4: answered 19.
const TWO_BOTHS: &str = "G 1/G 3/I/G 2/G 4/I/U/K 1/K 2/E/";
/// A lift of it is refused with 27; it plays no part.
const LIFTED_UNDER_BOTH: &str = "G 1/G 2/D/G 3/I/L 0 1/K 2/E/";

/// Question, candidate's tree and mark.
const MARKED: [(&str, &str, usize); 97] = [
    // The key's own tree, others that are as good, the tree as written, wrong lamps.
    (EXAMPLE, "G 1/G 2/G 3/U/G 5/U/D/G 4/G 5/D/U/E/", 0),
    (EXAMPLE, "G 1/G 2/G 3/U/D/G 4/U/G 5/D/E/", 0),
    (EXAMPLE, "G 1/G 3/G 2/U/D/G 4/U/G 5/D/E/", 0),
    (EXAMPLE, "G 4/G 1/G 2/G 3/U/D/U/G 5/D/E/", 0),
    (EXAMPLE, "G 1/G 2/G 3/U/G 2/U/D/G 4/U/G 5/D/E/", 0),
    (EXAMPLE, "G 1/G 2/D/G 3/D/G 4/U/G 5/D/E/", 2),
    (EXAMPLE, "G 1/G 2/G 3/U/D/G 2/D/G 4/U/G 5/D/E/", 2),
    (EXAMPLE, "G 1/G 2/G 3/U/D/G 4/U/E/", 1),
    (EXAMPLE, "G 1/G 2/G 3/D/D/G 4/U/G 5/D/E/", 1),
    (EXAMPLE, "G 2/G 3/U/G 1/D/G 4/U/G 5/D/E/", 1),
    (EXAMPLE, "G 5/G 1/G 2/G 3/U/D/G 4/U/D/E/", 1),
    // Other lamps come before not gathered.
    (EXAMPLE, "G 1/G 2/D/G 3/D/G 4/U/E/", 1),
    (EXAMPLE, "G 1/G 2/D/G 3/D/E/", 1),
    (EXAMPLE, "G 1/E/", 1),
    // The lifts play no part.
    (LIFTED_TO_GATHERED, "G 1/G 2/D/G 3/D/E/", 2),
    (LIFTED_TO_GATHERED, "G 1/G 2/G 3/U/D/E/", 0),
    (LIFTED_TO_GATHERED, "G 1/G 3/G 2/U/D/E/", 0),
    // Samples (vii) to (x).
    (SAMPLE_7, "G 1/G 3/D/G 2/G 4/D/U/E/", 2),
    (SAMPLE_7, "G 2/G 4/D/G 1/G 3/D/U/E/", 2),
    (SAMPLE_7, "G 1/G 2/U/G 3/D/E/", 1),
    (SAMPLE_7, "G 1/G 2/U/G 3/G 4/U/D/E/", 1),
    (SAMPLE_7, "G 1/G 2/U/E/", 1),
    (SAMPLE_8, "G 1/G 2/U/G 3/D/E/", 0),
    (SAMPLE_8, "G 1/G 2/U/G 3/G 3/D/G 3/U/D/E/", 0),
    (SAMPLE_8, "G 1/G 3/D/G 2/G 3/D/U/E/", 2),
    (SAMPLE_8, "G 1/G 3/D/G 2/U/E/", 1),
    (SAMPLE_9, "G 1/G 2/D/G 2/G 1/D/U/E/", 2),
    (SAMPLE_9, "G 1/G 2/U/G 1/G 1/G 2/D/D/D/E/", 2),
    (SAMPLE_9, "G 1/G 2/U/E/", 1),
    (SAMPLE_9, "G 2/G 1/D/E/", 1),
    (SAMPLE_9, "G 1/E/", 1),
    (SAMPLE_10, "G 1/G 1/G 2/D/D/E/", 2),
    (SAMPLE_10, "G 2/G 2/G 1/D/D/E/", 0),
    (SAMPLE_10, "G 2/G 2/G 1/G 1/U/D/D/E/", 0),
    (SAMPLE_10, "G 1/G 2/D/E/", 1),
    // Trees that select nothing: equal lamps, and a holder is due all the same.
    (EMPTY_SET, "G 2/G 2/D/E/", 0),
    (EMPTY_SET, "G 1/G 1/D/G 2/G 2/D/U/E/", 0),
    (EMPTY_SET, "G 1/G 1/G 2/U/D/E/", 0),
    (EMPTY_SET, "G 1/G 1/D/E/", 2),
    (EMPTY_SET, "G 2/G 1/U/G 1/G 2/U/D/E/", 2),
    (EMPTY_SET, "G 2/E/", 1),
    // A mark that adds nothing must stand there all the same; one of several marks need not.
    (IDLE_MARK, "G 2/G 1/G 1/D/U/E/", 0),
    (IDLE_MARK, "G 2/G 1/G 1/D/D/E/", 0),
    (IDLE_MARK, "G 2/E/", 2),
    (IDLE_MARK, "G 2/G 2/U/E/", 2),
    (IDLE_MARK, "G 2/G 1/G 1/D/D/G 1/G 1/D/U/E/", 2),
    (IDLE_MARK, "G 1/E/", 1),
    (ONE_IDLE_OF_TWO, "G 1/G 3/D/E/", 0),
    (ONE_IDLE_OF_TWO, "G 1/G 2/G 2/D/U/G 3/D/E/", 0),
    (ONE_IDLE_OF_TWO, "G 1/G 3/D/G 2/G 2/D/U/E/", 2),
    (ONE_IDLE_OF_TWO, "G 1/G 2/U/G 3/D/E/", 1),
    // Every leaf is marked: the root holds them.
    (ALL_MARKED, "G 1/G 2/D/E/", 0),
    (ALL_MARKED, "G 1/G 2/U/G 2/D/E/", 0),
    (ALL_MARKED, "G 2/G 1/D/E/", 1),
    ("G 1/K 1/E/", "G 1/E/", 0),
    ("G 1/K 1/E/", "G 1/G 1/U/E/", 0),
    ("G 1/K 1/E/", "G 1/G 1/D/E/", 1),
    // Without marks only the lamps count.
    (NO_MARKS, "G 1/G 2/D/E/", 0),
    (NO_MARKS, "G 1/G 1/G 1/G 2/D/D/D/E/", 0),
    (NO_MARKS, "G 1/G 2/U/G 2/D/E/", 0),
    (NO_MARKS, "G 2/G 1/D/E/", 1),
    (NO_MARKS, "G 1/G 2/G 2/D/D/E/", 1),
    // x−(x−y) and x I y have the same lamps, asked and drawn either way.
    (BOTH, "G 1/G 2/I/E/", 0),
    (BOTH, "G 2/G 1/I/E/", 0),
    (BOTH, "G 1/G 1/G 2/D/D/E/", 0),
    (BOTH, "G 2/G 2/G 1/D/D/E/", 0),
    (BOTH, "G 1/G 2/U/E/", 1),
    (BOTH, "G 1/G 2/D/E/", 1),
    (BOTH, "G 1/E/", 1),
    (BOTH, "G 1/G 1/I/E/", 1),
    (BOTH_BY_DIFFERENCES, "G 1/G 2/I/E/", 0),
    (BOTH_BY_DIFFERENCES, "G 2/G 1/I/E/", 0),
    (BOTH_BY_DIFFERENCES, "G 1/G 2/I/G 2/I/G 1/I/E/", 0),
    (BOTH_BY_DIFFERENCES, "G 2/E/", 1),
    (NO_MARKS, "G 1/G 1/G 2/I/D/E/", 0),
    (NO_MARKS, "G 1/G 2/I/E/", 1),
    // Marks under an I: of the two ways without it, one has the mark twice.
    (BOTH_ONE_MARKED, "G 1/G 2/I/E/", 0),
    (BOTH_ONE_MARKED, "G 2/G 1/I/E/", 0),
    (BOTH_ONE_MARKED, "G 2/G 2/G 1/D/D/E/", 0),
    (BOTH_ONE_MARKED, "G 1/G 1/I/G 2/I/E/", 0),
    (BOTH_ONE_MARKED, "G 1/G 1/G 2/D/D/E/", 2),
    (BOTH_ONE_MARKED, "G 1/G 2/I/G 1/I/E/", 2),
    (BOTH_ONE_MARKED, "G 1/E/", 1),
    (BOTH_ALL_MARKED, "G 1/G 2/I/E/", 0),
    (BOTH_ALL_MARKED, "G 1/G 2/I/G 1/U/E/", 1),
    (SAMPLE_10, "G 1/G 2/I/E/", 0),
    (SAMPLE_10, "G 2/G 1/I/G 1/I/E/", 2),
    (BOTH_OR_3, "G 3/G 2/G 1/I/U/E/", 0),
    (BOTH_OR_3, "G 1/G 1/G 2/D/D/G 3/U/E/", 0),
    (BOTH_OR_3, "G 1/G 3/U/G 2/G 3/U/I/E/", 2),
    (BOTH_OR_3, "G 1/G 2/G 3/U/I/E/", 1),
    (SAMPLE_8, "G 1/G 2/U/G 1/G 2/U/G 3/D/I/E/", 2),
    (SAMPLE_9, "G 1/G 2/U/G 1/G 2/I/D/E/", 2),
    (TWO_BOTHS, "G 1/G 3/I/G 2/G 4/I/U/E/", 2),
    (TWO_BOTHS, "G 1/G 2/U/G 3/G 4/U/I/E/", 1),
    (LIFTED_UNDER_BOTH, "G 1/G 2/D/G 3/I/E/", 0),
    (LIFTED_UNDER_BOTH, "G 1/G 3/I/G 2/D/E/", 0),
];

/// A candidate's file for a question of the groups 1 to 3, with the number and line of its refusal.
const REFUSED: [(&str, &str); 53] = [
    ("", "10 1"),
    ("G 1/", "10 2"),
    ("G 1/G 2/", "10 3"),
    ("E", "2 1"),
    ("G 1/E", "2 2"),
    ("G 1/E/E", "2 3"),
    ("G 1/E//", "2 3"),
    ("G 1/E/E/", "3 3"),
    ("G 1/E/U/", "3 3"),
    ("G 1/E/G 9/", "3 3"),
    ("E/", "7 1"),
    ("G 1/G 2/E/", "7 3"),
    ("U/E/", "4 1"),
    ("G 1/D/E/", "4 2"),
    ("G 1/G 2/U/D/", "4 4"),
    ("I/E/", "4 1"),
    ("G 1/I/E/", "4 2"),
    ("G 1/G 2/I/I/", "4 4"),
    ("G 1/G 2/I 1/E/", "2 3"),
    ("G 1/G 2/i/E/", "2 3"),
    ("G 1/G 2/I", "2 3"),
    ("G 1/E/I/", "3 3"),
    // Lifts and marks have no place: 3 wherever they stand, before 7, 8, 9 and 10; 2 comes before it.
    ("L 0 1/E/", "3 1"),
    ("K 1/E/", "3 1"),
    ("K 9/", "3 1"),
    ("G 1/L 0 1/E/", "3 2"),
    ("G 1/K 1/E/", "3 2"),
    ("G 1/K 1/K 1/E/", "3 2"),
    ("G 1/K 2/E/", "3 2"),
    ("G 1/G 2/L 0 1/U/E/", "3 3"),
    ("G 1/G 2/K 1/E/", "3 3"),
    ("G 1/G 2/L 8190 99/E/", "3 3"),
    ("G 1/G 2/U/L 0 1/K 1/E/", "3 4"),
    ("G 1/E/K 1/", "3 3"),
    ("G 1/E/L 0 1/", "3 3"),
    ("L 8191 1/E/", "2 1"),
    ("G 1/G 2/L 0 100/E/", "2 3"),
    ("G 1/L 0 0/E/", "2 2"),
    ("K 0/E/", "2 1"),
    ("G 1/G 2/K 60001/E/", "2 3"),
    ("G 1/E/K 1", "2 3"),
    // A group that is not in the question's tree: after reading, at the first such line.
    ("G 9/E/", "26 1"),
    ("G 1/G 9/G 9/D/U/E/", "26 2"),
    ("G 1/G 2/D/G 8/U/G 9/U/G 8/D/E/", "26 4"),
    ("G 1/G 4/D/G 3/U/G 60000/D/E/", "26 2"),
    ("G 1/G 2/D/G 3/U/G 60000/D/E/", "26 6"),
    ("G 9/", "10 2"),
    ("G 9/G 1/E/", "7 3"),
    ("G 9/U/E/", "4 2"),
    ("G 9/I/E/", "4 2"),
    ("G 1/G 9/I/E/", "26 2"),
    ("G 9/K 9/E/", "3 2"),
    ("G 9/G 1/U/X/", "2 4"),
];
const REFUSED_BESIDE: &str = "G 1/G 2/D/G 3/U/K 3/E/";

/// The question's refusal comes first, whatever the candidate's file is.
const REFUSED_QUESTIONS: [(&str, &str); 12] = [
    ("G 0/E/", "2 1"),
    ("G 1/E/E/", "3 3"),
    ("G 1/K 1/L 0 1/E/", "3 3"),
    ("G 1/U/E/", "4 2"),
    ("G 1/I/E/", "4 2"),
    ("G 1/G 2/G 3/G 4/G 5/G 6/G 7/G 8/G 9/E/", "6 9"),
    ("G 1/G 2/K 1/E/", "7 3"),
    ("G 1/G 2/L 0 1/E/", "7 3"),
    ("G 1/K 2/E/", "8 2"),
    ("G 1/K 1/K 1/E/", "9 3"),
    ("G 1/K 1/", "10 3"),
    ("", "10 1"),
];
const CANDIDATES_BESIDE: [&str; 7] = ["G 1/E/", "", "G 9/E/", "K 1/E/", "X", "G 1/U/E/", "G 1/I/E/"];

fn case(question: &str, candidate: &str, line: &str) -> Pair {
    let name = format!("pair {question:?}, {candidate:?}");
    Pair { name, ..Pair::new(text(question), text(candidate)) }.due(line)
}

/// Files that cannot be opened, or are not named, count as empty.
fn files_that_are_not_there() -> Vec<Pair> {
    let bytes = |lines: &str| File::Bytes(text(lines));
    let (question, candidate) = ("G 1/K 1/E/", "G 1/E/");
    let files = [
        ("no such question", File::Missing, bytes(candidate), "NO 10 1 0/"),
        ("no such candidate's file", bytes(question), File::Missing, "NO 10 1 1/"),
        ("no such files", File::Missing, File::Missing, "NO 10 1 0/"),
        ("a refused question and no such file", bytes("G 0/"), File::Missing, "NO 2 1 0/"),
        ("a question alone", bytes(question), File::NotNamed, "NO 10 1 1/"),
        ("a refused question alone", bytes("G 1/K 2/"), File::NotNamed, "NO 8 2 0/"),
        ("no names", File::NotNamed, File::NotNamed, "NO 10 1 0/"),
        ("an empty question", bytes(""), bytes(candidate), "NO 10 1 0/"),
        ("an empty candidate's file", bytes(question), bytes(""), "NO 10 1 1/"),
    ];
    let pair = |(name, question, candidate, line): (&str, File, File, &str)| Pair {
        name: format!("pair: {name}"),
        question,
        candidate,
        due: Some(text(line)),
    };
    files.into_iter().map(pair).collect()
}

pub fn cases() -> Vec<Pair> {
    let marked = MARKED.iter().map(|(question, tree, mark)| case(question, tree, &format!("MARK {mark}/")));
    let refused = REFUSED.iter().map(|(candidate, fault)| case(REFUSED_BESIDE, candidate, &format!("NO {fault} 1/")));
    let questions = REFUSED_QUESTIONS.iter().flat_map(|(question, fault)| {
        CANDIDATES_BESIDE.map(|candidate| case(question, candidate, &format!("NO {fault} 0/")))
    });
    let large = MARKED.iter().map(|(question, tree, mark)| {
        case(&with_large_groups(question), &with_large_groups(tree), &format!("MARK {mark}/"))
    });
    marked.chain(large).chain(refused).chain(questions).chain(files_that_are_not_there()).collect()
}
