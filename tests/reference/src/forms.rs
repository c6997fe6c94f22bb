//! Tables whose rows are 0, 1 or free, and the forms by which a tree for one is made of the trees of two
//! tables with a variable less.

use crate::gather::{difference, union, Built};

#[derive(Clone, Copy, PartialEq, Eq)]
pub enum Row {
    Zero,
    One,
    Free,
}
use Row::{Free, One, Zero};

impl Row {
    pub fn of(value: bool) -> Row {
        if value {
            One
        } else {
            Zero
        }
    }

    fn inverse(self) -> Row {
        match self {
            Zero => One,
            One => Zero,
            Free => Free,
        }
    }

    /// This row, but another one where the condition holds.
    fn unless(self, condition: bool, other: Row) -> Row {
        if condition {
            other
        } else {
            self
        }
    }
}

/// A table's rows: bit v of a row's number is the variable v's.
pub type Table = Vec<Row>;

/// What a form joins: trees, or the numbers of their leaves. The default is no tree, which selects nothing.
pub trait Part: Clone + Default {
    fn union(self, other: Self) -> Self;
    fn difference(self, other: Self) -> Self;
}

impl Part for Built {
    fn union(self, other: Built) -> Built {
        union(self, other)
    }
    fn difference(self, other: Built) -> Built {
        difference(self, other)
    }
}

impl Part for usize {
    fn union(self, other: usize) -> usize {
        self + other
    }
    fn difference(self, other: usize) -> usize {
        if self == 0 {
            0
        } else {
            self + other
        }
    }
}

/// How a tree is made of a variable's tree x and of the trees a and b of the parts: see `join`.
#[derive(Clone, Copy, PartialEq, Eq)]
pub enum Form {
    Drop,
    Less,
    Plus,
    ReducedPlus,
    JoinedLess,
    LessOutside,
    ReducedUnion,
    JoinedDifference,
}

/// In the order in which they are tried.
pub const FORMS: [Form; 8] = [
    Form::Drop,
    Form::Less,
    Form::Plus,
    Form::ReducedPlus,
    Form::JoinedLess,
    Form::LessOutside,
    Form::ReducedUnion,
    Form::JoinedDifference,
];

impl Form {
    /// The form's tree, or its leaves.
    pub fn join<P: Part>(self, x: P, a: P, b: P) -> P {
        match self {
            Form::Drop => a,
            Form::Less => a.difference(x.difference(b)),
            Form::Plus => a.union(x.difference(b)),
            Form::ReducedPlus => a.difference(x.clone()).union(x.difference(b)),
            Form::JoinedLess => a.union(x.clone()).difference(x.difference(b)),
            Form::LessOutside => a.difference(b.difference(x)),
            Form::ReducedUnion => a.difference(x).union(b),
            Form::JoinedDifference => a.union(x).difference(b),
        }
    }

    /// Whether the form may be used where the table's row is `low` without the variable and `high` with it.
    fn may_use(self, low: Row, high: Row) -> bool {
        let (rises, falls) = ((low, high) == (Zero, One), (low, high) == (One, Zero));
        match self {
            Form::Drop => !rises && !falls,
            Form::Less | Form::ReducedUnion => !rises,
            Form::Plus | Form::LessOutside | Form::JoinedDifference => !falls,
            Form::ReducedPlus | Form::JoinedLess => true,
        }
    }

    /// The rows of a's table and of b's there.
    fn rows(self, low: Row, high: Row) -> [Row; 2] {
        match self {
            Form::Drop => [low.unless(low == Free, high), Free],
            Form::Less => [low.unless(high == One, One), high.unless(low == Zero, Free)],
            Form::Plus => [low.unless(high == Zero, Zero), high.inverse().unless(low == One, Free)],
            Form::ReducedPlus => [low, high.inverse()],
            Form::JoinedLess => [low, high],
            Form::LessOutside => [high.unless(low == One, One), low.inverse().unless(high == Zero, Free)],
            Form::ReducedUnion => [low.unless(high == One, Free), high.unless(low == Zero, Zero)],
            Form::JoinedDifference => [low.unless(high == Zero, Free), high.inverse().unless(low == One, Zero)],
        }
    }

    /// Whether the holder as x stands in the tree once, and no difference around it has an empty left operand.
    pub fn keeps_holder(self, a: &[Row], b: &[Row]) -> bool {
        match self {
            Form::Drop | Form::ReducedPlus | Form::JoinedLess => false,
            Form::Less | Form::ReducedUnion => a.contains(&One),
            Form::LessOutside => a.contains(&One) && b.contains(&One),
            Form::Plus | Form::JoinedDifference => true,
        }
    }
}

/// The tables of a and b; none where the form may not be used at some row, or where one of them is 1 in
/// row 0, in which no tree selects anything.
pub fn split(form: Form, table: &[Row], variable: usize) -> Option<[Table; 2]> {
    let step = 1 << variable;
    let blocks = || table.chunks(2 * step).map(|block| block.split_at(step));
    let usable = |(low, high): (&[Row], &[Row])| low.iter().zip(high).all(|(&low, &high)| form.may_use(low, high));
    if form.rows(table[0], table[step]).contains(&One) || !blocks().all(usable) {
        return None;
    }
    let mut parts = [Table::with_capacity(table.len() / 2), Table::with_capacity(table.len() / 2)];
    for (low, high) in blocks() {
        for (&low, &high) in low.iter().zip(high) {
            let [a, b] = form.rows(low, high);
            parts[0].push(a);
            parts[1].push(b);
        }
    }
    Some(parts)
}
