//! How often each category must be met by the sheets with a school's table.

use super::{cases, kinds};
use reference::key_traits::{Marks, Trait};
use reference::table::INPUTS;

/// The category of a sheet with a school's table that shows this.
pub fn category(seen: &Trait) -> String {
    format!("with a table: {seen:?}")
}

/// How many of a thousand sheets must show each of these.
fn least_traits() -> Vec<(Trait, usize)> {
    use Trait::*;
    let mut least = vec![
        (TableRefused(28), 40),
        (TableRefused(29), 20),
        (TableAndSheetRefused(28), 8),
        (TableAndSheetRefused(29), 3),
        (SchoolWithoutIntersection, 300),
        (SchoolWithIntersection, 150),
        (Marked(Marks::None), 300),
        (Marked(Marks::GatheredAlready), 20),
        (Marked(Marks::Gatherable), 30),
        (Marked(Marks::NotGatherable), 20),
        (LiftDone, 1000),
        (LiftedTo8191Nodes, 15),
        (CopyingStep, 200),
        (CopyingStepTooLong, 60),
    ];
    least.extend([13, 14, 15, 16, 27].map(|number| (LiftRefused(number), 20)));
    least.extend([2, 3, 7].map(|number| (Refused(number), 1)));
    for state in 1..=9 {
        least.push((if state < 5 { StepAtLevel2(state) } else { StepRefused(2, state) }, 8));
        for input in INPUTS {
            least.extend([StepAtLevel3(state, input), StepDeeper(state, input)].map(|step| (step, 3)));
            least.push((StepFollowed(state, input), 2));
        }
        for letter in ['i', 'j'] {
            least.extend([3, 4].map(|level| (IntersectionAboveT(level, state, letter), 1)));
        }
    }
    for letter in ['i', 'j'] {
        for level in 2..=4 {
            least.push((IntersectionAsParent(level, letter), 8));
            least.extend(INPUTS.map(|parent| (IntersectionAsGrandparent(level, parent, letter), 2)));
        }
    }
    least
}

/// The categories when so many random sheets have a table.
pub fn least_counts(sheets: usize) -> Vec<(String, usize)> {
    let rounds = sheets / kinds::shares();
    let kinds = kinds::KINDS.iter().map(|(name, share, _)| (kind_category(name), share * rounds));
    let traits = least_traits().into_iter().map(|(seen, count)| (category(&seen), count * sheets / 1000));
    kinds.chain(traits).chain(cases::least_faults()).collect()
}

pub fn kind_category(kind: &str) -> String {
    format!("sheets with a table: {kind}")
}
