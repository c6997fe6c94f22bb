//! Trees: postfix lists of numbers, and the nodes that a list stands for.

pub const UNION: u16 = 65001;
pub const DIFFERENCE: u16 = 65002;
/// 02, request 6.
pub const INTERSECTION: u16 = 65003;
/// 02, request 4.
pub const LAST_GROUP: u16 = 60_000;
pub const MAXIMUM_NODES: usize = 8191;

#[derive(Clone, Copy, PartialEq, Eq, PartialOrd, Ord, Debug)]
pub enum Operator {
    Union,
    Difference,
    Intersection,
}

/// The operators of 01, and those with 02's request 6.
pub const TWO_OPERATORS: &[Operator] = &[Operator::Union, Operator::Difference];
pub const THREE_OPERATORS: &[Operator] = &[Operator::Union, Operator::Difference, Operator::Intersection];

impl Operator {
    pub fn number(self) -> u16 {
        match self {
            Operator::Union => UNION,
            Operator::Difference => DIFFERENCE,
            Operator::Intersection => INTERSECTION,
        }
    }

    fn apply<S: Set>(self, left: &S, right: &S) -> S {
        match self {
            Operator::Union => left.union(right),
            Operator::Difference => left.difference(right),
            Operator::Intersection => left.intersection(right),
        }
    }
}

/// What a number of a list can be.
#[derive(Clone, Copy, PartialEq, Eq)]
pub enum Sign {
    Group(u16),
    Operator(Operator),
}

pub fn sign(number: u16) -> Option<Sign> {
    match number {
        1..=LAST_GROUP => Some(Sign::Group(number)),
        UNION => Some(Sign::Operator(Operator::Union)),
        DIFFERENCE => Some(Sign::Operator(Operator::Difference)),
        INTERSECTION => Some(Sign::Operator(Operator::Intersection)),
        _ => None,
    }
}

/// Anything that has union, difference and intersection.
pub trait Set {
    fn union(&self, other: &Self) -> Self;
    fn difference(&self, other: &Self) -> Self;
    fn intersection(&self, other: &Self) -> Self;
}

/// One lamp: in or out.
impl Set for bool {
    fn union(&self, other: &bool) -> bool {
        *self | *other
    }
    fn difference(&self, other: &bool) -> bool {
        *self & !*other
    }
    fn intersection(&self, other: &bool) -> bool {
        *self & *other
    }
}

/// Many lamps, one bit each.
impl<const WORDS: usize> Set for [u64; WORDS] {
    fn union(&self, other: &Self) -> Self {
        std::array::from_fn(|word| self[word] | other[word])
    }
    fn difference(&self, other: &Self) -> Self {
        std::array::from_fn(|word| self[word] & !other[word])
    }
    fn intersection(&self, other: &Self) -> Self {
        std::array::from_fn(|word| self[word] & other[word])
    }
}

/// The set that a tree selects when `contents` gives each group its set.
pub fn select<S: Set>(tree: &[u16], contents: impl Fn(u16) -> S) -> S {
    let mut waiting: Vec<S> = Vec::new();
    for &number in tree {
        match sign(number).expect("a tree's number") {
            Sign::Group(group) => waiting.push(contents(group)),
            Sign::Operator(operator) => {
                let right = waiting.pop().expect("a right operand");
                let left = waiting.last_mut().expect("a left operand");
                *left = operator.apply(left, &right);
            }
        }
    }
    waiting.pop().expect("a tree")
}

/// The different groups of a list, in the order in which they come first.
pub fn groups(list: &[u16]) -> Vec<u16> {
    let mut seen = vec![false; usize::from(LAST_GROUP) + 1];
    let mut groups = Vec::new();
    for &number in list {
        if number <= LAST_GROUP && !std::mem::replace(&mut seen[usize::from(number)], true) {
            groups.push(number);
        }
    }
    groups
}

/// Whether a list has no `I`.
pub fn without_intersection(list: &[u16]) -> bool {
    !list.contains(&INTERSECTION)
}

#[derive(Clone, Copy)]
pub enum Node {
    Leaf(u16),
    Branch { operator: Operator, left: usize, right: usize },
}

/// A node as it is kept: its number in a list, its operands (of a leaf 0) and the size of its part.
#[derive(Clone, Copy)]
struct Entry {
    number: u16,
    left: u32,
    right: u32,
    size: u32,
}

/// Nodes named by their index. Operands stand before their operator and may be shared.
#[derive(Default)]
pub struct Nodes {
    entries: Vec<Entry>,
}

impl Nodes {
    /// The nodes of a list, each at its own position, so that the root is the last;
    /// `None` if the list is not a tree of 1 to 8,191 nodes.
    pub fn parse(list: &[u16]) -> Option<Nodes> {
        if list.is_empty() || list.len() > MAXIMUM_NODES {
            return None;
        }
        let mut nodes = Nodes { entries: Vec::with_capacity(list.len()) };
        let mut waiting: Vec<usize> = Vec::with_capacity(list.len());
        for &number in list {
            let node = match sign(number)? {
                Sign::Group(group) => nodes.leaf(group),
                Sign::Operator(operator) => {
                    let right = waiting.pop()?;
                    let left = waiting.pop()?;
                    nodes.branch(operator, left, right)
                }
            };
            waiting.push(node);
        }
        (waiting.len() == 1).then_some(nodes)
    }

    #[inline]
    pub fn leaf(&mut self, group: u16) -> usize {
        assert!(group <= LAST_GROUP, "a leaf is a group");
        self.push(Entry { number: group, left: 0, right: 0, size: 1 })
    }

    #[inline]
    pub fn branch(&mut self, operator: Operator, left: usize, right: usize) -> usize {
        let size = self.entries[left].size.saturating_add(self.entries[right].size).saturating_add(1);
        self.push(Entry { number: operator.number(), left: left as u32, right: right as u32, size })
    }

    pub fn union(&mut self, left: usize, right: usize) -> usize {
        self.branch(Operator::Union, left, right)
    }

    pub fn difference(&mut self, left: usize, right: usize) -> usize {
        self.branch(Operator::Difference, left, right)
    }

    #[inline]
    fn push(&mut self, entry: Entry) -> usize {
        self.entries.push(entry);
        self.entries.len() - 1
    }

    pub fn count(&self) -> usize {
        self.entries.len()
    }

    pub fn root(&self) -> usize {
        self.entries.len() - 1
    }

    #[inline]
    pub fn node(&self, node: usize) -> Node {
        let Entry { number, left, right, .. } = self.entries[node];
        let (left, right) = (left as usize, right as usize);
        match number {
            UNION => Node::Branch { operator: Operator::Union, left, right },
            DIFFERENCE => Node::Branch { operator: Operator::Difference, left, right },
            INTERSECTION => Node::Branch { operator: Operator::Intersection, left, right },
            group => Node::Leaf(group),
        }
    }

    /// The number of nodes of the part that ends at `node`.
    pub fn size(&self, node: usize) -> usize {
        self.entries[node].size as usize
    }

    /// The list of the part that ends at `node`.
    pub fn postfix(&self, node: usize) -> Vec<u16> {
        let mut list = Vec::with_capacity(self.size(node));
        self.write_postfix(node, &mut list);
        list
    }

    /// Adds the list of the part that ends at `node`, found from its end.
    pub fn write_postfix(&self, node: usize, list: &mut Vec<u16>) {
        let start = list.len();
        let mut waiting = Vec::new();
        let mut next = Some(node);
        while let Some(node) = next {
            list.push(self.entries[node].number);
            next = match self.node(node) {
                Node::Leaf(_) => waiting.pop(),
                Node::Branch { left, right, .. } => {
                    waiting.push(left);
                    Some(right)
                }
            };
        }
        list[start..].reverse();
    }
}
