//! A second compact builder: the trees that the verified gathering returns, where 01 leaves them free.
//!
//! A table is split by one variable after the other, each time by a form (`forms`). A variable is a
//! group or, as the highest one, the holder of the marked groups. Of all steps that are allowed the
//! first with the fewest leaves is taken, as one look ahead counts them.

use crate::forms::{split, Form, Part, Row, Row::One, Table, FORMS};
use crate::gather::{difference, gather_by, union, Built};
use crate::refusal::Refusal;

/// The highest variable.
fn top(table: &[Row]) -> usize {
    table.len().ilog2() as usize - 1
}

/// Whether the holder is a variable, and whether it is to stand in the tree.
#[derive(Clone, Copy, PartialEq, Eq)]
enum Holder {
    Absent,
    Dropped,
    Held,
}
use Holder::{Absent, Dropped, Held};

struct Step {
    form: Form,
    variable: usize,
    parts: [(Holder, Table); 2],
}

impl Step {
    /// The form's tree, or its leaves, by those of x and of the parts.
    fn join<P: Part>(&self, x: P, part: impl Fn(Holder, &[Row]) -> P) -> P {
        let [a, b] = &self.parts;
        let second = if self.form == Form::Drop { P::default() } else { part(b.0, &b.1) };
        self.form.join(x, part(a.0, &a.1), second)
    }

    fn leaves(&self) -> usize {
        self.join(1, estimate)
    }
}

/// The step that splits the highest variable by this form, if it is allowed.
fn top_step(holder: Holder, form: Form, table: &[Row]) -> Option<Step> {
    let variable = top(table);
    let [a, b] = split(form, table, variable)?;
    let allowed = match holder {
        Absent => true,
        Dropped => form == Form::Drop,
        Held => form.keeps_holder(&a, &b),
    };
    allowed.then_some(Step { form, variable, parts: [(Absent, a), (Absent, b)] })
}

/// The first that is allowed of the steps that split the highest variable.
fn first_top_step(holder: Holder, table: &[Row]) -> Option<Step> {
    FORMS.into_iter().find_map(|form| top_step(holder, form, table))
}

/// Which part the holder goes on in, when a group below it is split by this form; it is dropped in the other one.
fn beside(form: Form, a: &[Row], b: &[Row]) -> Option<[Holder; 2]> {
    let dropped = |table: &[Row]| split(Form::Drop, table, top(table));
    let can_hold = |table: &[Row]| first_top_step(Held, table).is_some();
    if dropped(b).is_some() {
        return can_hold(a).then_some([Held, Dropped]);
    }
    let [left, _] = dropped(a)?;
    let left_of_difference = matches!(form, Form::Less | Form::LessOutside);
    let allowed = (!left_of_difference || left.contains(&One)) && can_hold(b);
    allowed.then_some([Dropped, Held])
}

/// The step that splits a variable by this form, if it is allowed.
fn step(holder: Holder, form: Form, table: &[Row], variable: usize) -> Option<Step> {
    if variable == top(table) {
        return top_step(holder, form, table);
    }
    let [a, b] = split(form, table, variable)?;
    let [first, second] = match holder {
        Absent => [Absent, Absent],
        Dropped => return None,
        Held => beside(form, &a, &b)?,
    };
    Some(Step { form, variable, parts: [(first, a), (second, b)] })
}

/// The leaves of the tree in which always the highest variable is split by the first form that may.
fn estimate(holder: Holder, table: &[Row]) -> usize {
    if table.len() == 1 {
        return 0;
    }
    first_top_step(holder, table).expect("a form that may split it").leaves()
}

/// The first step of the fewest leaves: by variables, then by forms.
fn choose(holder: Holder, table: &[Row]) -> Step {
    let candidates = (0..=top(table)).flat_map(|variable| FORMS.map(|form| (form, variable)));
    let steps = candidates.filter_map(|(form, variable)| step(holder, form, table, variable));
    steps.min_by_key(Step::leaves).expect("a step that is allowed")
}

/// Stands for the holder among the groups that are variables.
const HOLDER: u16 = 0;

/// A tree that agrees with the table. `held` is the holder's tree.
fn build(holder: Holder, table: &[Row], variables: &[u16], held: &Built) -> Built {
    if variables.is_empty() {
        return None;
    }
    let step = choose(holder, table);
    let mut rest = variables.to_vec();
    let x = match rest.remove(step.variable) {
        HOLDER => held.clone(),
        group => Some(vec![group]),
    };
    step.join(x, |holder, table| build(holder, table, &rest, held))
}

/// The gathered tree for a function whose varying columns are equal.
fn build_gathered(rows: &[bool], marks: &[u16], others: &[u16]) -> Vec<u16> {
    let columns: Vec<&[bool]> = rows.chunks(1 << marks.len()).collect();
    let across = |place: usize| columns.iter().map(move |column| Row::of(column[place]));
    let varying = columns.iter().find_map(|column| {
        let place = column.iter().position(|&value| value != column[0])?;
        Some((column, place))
    });
    let built = match varying {
        None => {
            let mark = || Some(vec![marks[0]]);
            union(build(Absent, &across(0).collect::<Table>(), others, &None), difference(mark(), mark()))
        }
        Some((column, place)) => {
            let differing: Table = column.iter().map(|&value| Row::of(value != column[0])).collect();
            let held = build(Absent, &differing, marks, &None);
            let table: Table = across(0).chain(across(place)).collect();
            build(Held, &table, &[others, &[HOLDER]].concat(), &held)
        }
    };
    built.expect("a tree with a holder")
}

/// The gathered tree and its holder's position, or 12, 17, 18 or 19.
pub fn gather(tree: &[u16], marks: &[u16]) -> Result<(Vec<u16>, usize), Refusal> {
    gather_by(tree, marks, build_gathered)
}
