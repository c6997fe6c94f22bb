//! Checks of a printed key, of either device: byte for byte where 01 fixes it, by what 01 asks where it is free.

use crate::check::{ensure, gathered_tree};
use crate::coder::{run, ADD, BOTH, CUT, INSTRUCTION_NUMBERS, LOAD, REGISTERS};
use crate::device::Device;
use crate::gather::{gather, holder};
use crate::key::{key, lifts_by, Held, Key, Lifts};
use crate::key_traits::{group_traits, intersection_traits, lift_traits, refused_table_traits, school_traits};
use crate::key_traits::{marks, refused_traits, Marks, Trait};
use crate::lift::Table;
use crate::player::{index, lamp_bytes, LAST_LAMP};
use crate::random::Random;
use crate::refusal::{INTERSECTION_ABOVE, NOT_GATHERABLE};
use crate::sheet::{read, Sheet, SHEET_NODES};
use crate::table::School;
use crate::tree::{groups, select, without_intersection, Nodes, Operator, LAST_GROUP};

fn operator_of(kind: u16) -> Option<Operator> {
    match kind {
        ADD => Some(Operator::Union),
        CUT => Some(Operator::Difference),
        BOTH => Some(Operator::Intersection),
        _ => None,
    }
}

/// The tree that instructions compute as their answer, if each result is used once.
pub fn decode(device: Device, code: &[u16]) -> Option<Vec<u16>> {
    let (computing, answer) = device.computing(code)?;
    let mut nodes = Nodes::default();
    let mut registers: [Option<usize>; REGISTERS as usize] = [None; REGISTERS as usize];
    for instruction in computing.chunks_exact(INSTRUCTION_NUMBERS) {
        let operand = |register: u16| registers.get(usize::from(register)).copied().flatten();
        let node = match (instruction[0], device.registers(instruction).0) {
            (LOAD, []) if (1..=LAST_GROUP).contains(&instruction[2]) => nodes.leaf(instruction[2]),
            (kind, &[left, right]) => nodes.branch(operator_of(kind)?, operand(left)?, operand(right)?),
            _ => return None,
        };
        *registers.get_mut(usize::from(instruction[1]))? = Some(node);
    }
    let root = registers.get(usize::from(answer)).copied().flatten()?;
    (nodes.size(root) * INSTRUCTION_NUMBERS == computing.len()).then(|| nodes.postfix(root))
}

/// Random pairs, mostly for these groups.
pub fn random_patch(groups: &[u16], random: &mut Random) -> Vec<u16> {
    let mut patch = Vec::new();
    for _ in 0..random.pick(&[0, 5, 40, 200]) {
        let any = random.between(1, usize::from(LAST_GROUP)) as u16;
        let group = if random.one_in(10) { any } else { random.pick(groups) };
        patch.extend([group, random.between(1, usize::from(LAST_LAMP)) as u16]);
    }
    patch
}

/// Played with this patch, a key's instructions light what the tree selects.
pub fn lamps(key: &Key, tree: &[u16], patch: &[u16]) -> Result<(), String> {
    let played = key.device.play(&key.code, patch);
    let lit = played.map_err(|number| format!("the player refuses the code with {number}"))?;
    let contents = index(patch);
    let selected = select(tree, |group| contents.get(&group).copied().unwrap_or_default());
    ensure(lit == lamp_bytes(&selected), "the lamps lit are not those of the tree as written")
}

/// The run is closed and loads marked groups only, and no marked group is loaded elsewhere. SHOW is in no run, and the
/// register that it names is read after it.
fn closed_run(key: &Key, first: usize, count: usize, marks: &[u16]) -> Result<(), String> {
    let run = first..first + count;
    let mut written = [false; REGISTERS as usize];
    let mut stale = [false; REGISTERS as usize];
    for (number, instruction) in (1..).zip(key.code.chunks(INSTRUCTION_NUMBERS)) {
        let inside = run.contains(&number);
        if instruction[0] == LOAD {
            let fault = format!("instruction {number} loads on the wrong side of the run");
            ensure(marks.contains(&instruction[2]) == inside, &fault)?;
        }
        let (read, target) = key.device.registers(instruction);
        for &operand in read {
            let own = !inside || written[usize::from(operand)];
            ensure(own && !stale[usize::from(operand)], &format!("instruction {number} breaks the closed run"))?;
        }
        let Some(target) = target.map(usize::from) else { return ensure(!inside, "SHOW is in the run") };
        stale[target] = false;
        written[target] |= inside;
        if number + 1 == run.end {
            stale = written;
            stale[target] = false;
        }
    }
    ensure(run.end <= key.code.len() / INSTRUCTION_NUMBERS + 1, "the run passes the code's end")
}

/// A key's instructions and `HELD` line where the gathered tree is free.
fn free_code(sheet: &Sheet, after_lifts: &[u16], printed: &Key) -> Result<(), String> {
    let tree = decode(printed.device, &printed.code).ok_or("the instructions do not compute a tree")?;
    let nodes = Nodes::parse(&tree).ok_or("the instructions compute no tree of 1 to 8,191 nodes")?;
    let code = printed.device.encode(&tree);
    ensure(code.as_deref() == Ok(&printed.code), "the instructions are not 01's code of their tree")?;
    let holder = holder(&nodes, &sheet.marks).ok_or("the coded tree is not gathered")?;
    for given in [after_lifts, &sheet.tree] {
        gathered_tree(given, &sheet.marks, &tree, holder)?;
    }
    let (first, count) = run(&tree, holder);
    ensure(printed.held == Some(Held::At { first, count }), "HELD does not name the holder's run")
}

/// The key of a sheet without `I` is one that could be printed before request 6.
fn as_before_both(sheet: &Sheet, printed: &Key) -> Result<(), String> {
    if !without_intersection(&sheet.tree) {
        return Ok(());
    }
    let both = printed.code.chunks(INSTRUCTION_NUMBERS).any(|instruction| instruction[0] == BOTH);
    ensure(!both, "BOTH in the key of a sheet without I")?;
    let refused = printed.lifts.iter().any(|&(number, _, _)| number == usize::from(INTERSECTION_ABOVE));
    ensure(!refused, "a lift refused with 27 in a sheet without I")
}

/// The looks of a done lift are its levels.
fn looks(sheet: &Sheet, printed: &Key) -> Result<(), String> {
    let mut lifts = sheet.lifts.iter().zip(&printed.lifts);
    let looks_are_levels = lifts.all(|(&(_, levels), &(number, _, looks))| number != 0 || looks == levels);
    ensure(looks_are_levels, "the looks of a done lift are not its levels")
}

/// The first line, from 1, in which the printed bytes leave the expected ones.
fn first_difference(printed: &[u8], expected: &[u8]) -> usize {
    let same = printed.iter().zip(expected).take_while(|(left, right)| left == right).count();
    expected[..same].iter().filter(|&&byte| byte == b'\n').count() + 1
}

fn same_bytes(printed: &[u8], expected: &[u8]) -> Result<(), String> {
    ensure(printed == expected, &format!("line {} is not 01's", first_difference(printed, expected)))
}

/// The verdict is that on the tree as written, whatever the lifts and the table.
fn verdict(sheet: &Sheet, printed: &Key) -> Result<(), String> {
    if sheet.marks.is_empty() {
        return ensure(printed.held.is_none(), "HELD without marks");
    }
    let refused = printed.held == Some(Held::Cannot(NOT_GATHERABLE));
    let due = gather(&sheet.tree, &sheet.marks).err() == Some(NOT_GATHERABLE);
    ensure(refused == due, "the verdict is not that on the tree as written")
}

/// What a sheet and its key show.
fn traits(table: Table, sheet: &Sheet, lifts: &Lifts, marks: Marks, printed: &Key) -> Vec<Trait> {
    let mut traits = lift_traits(lifts);
    traits.extend(group_traits(sheet, &printed.code));
    traits.extend(intersection_traits(sheet, &lifts.tree, marks));
    traits.extend(school_traits(table, sheet, lifts));
    traits.push(Trait::Marked(marks));
    if sheet.tree.len() == SHEET_NODES {
        traits.push(Trait::MostNodes);
    }
    traits
}

/// A printed key, its device, and where the key's patch comes from.
pub struct Printed<'a> {
    pub device: Device,
    pub bytes: &'a [u8],
    pub random: &'a mut Random,
}

fn accepted(table: Table, sheet: &Sheet, printed: Printed) -> Result<Vec<Trait>, String> {
    let lifts = lifts_by(table, sheet);
    let expected = key(printed.device, &lifts, &sheet.marks);
    let marks = marks(sheet, &lifts.tree, &expected);
    let parsed = Key::parse(printed.device, printed.bytes);
    if marks != Marks::Gatherable {
        same_bytes(printed.bytes, &expected.print())?;
    }
    let parsed = parsed.ok_or("the bytes are not those of a key")?;
    looks(sheet, &parsed)?;
    as_before_both(sheet, &parsed)?;
    verdict(sheet, &parsed)?;
    if marks == Marks::Gatherable {
        ensure(parsed.lifts == expected.lifts, "the LIFT lines are not 01's")?;
        free_code(sheet, &lifts.tree, &parsed)?;
    }
    if marks != Marks::NotGatherable {
        lamps(&parsed, &sheet.tree, &random_patch(&groups(&sheet.tree), printed.random))?;
    }
    if let Some(Held::At { first, count }) = parsed.held {
        closed_run(&parsed, first, count, &sheet.marks)?;
    }
    Ok(traits(table, sheet, &lifts, marks, &parsed))
}

fn key_by(table: Table, bytes: &[u8], printed: Printed) -> Result<Vec<Trait>, String> {
    match read(bytes) {
        Ok(sheet) => accepted(table, &sheet, printed),
        Err(fault) => same_bytes(printed.bytes, &fault.print()).map(|()| refused_traits(bytes, &fault)),
    }
}

/// Checks the key that a program printed for any bytes, with a school's table or without.
pub fn sheet_key(table: Option<&[u8]>, bytes: &[u8], printed: Printed) -> Result<Vec<Trait>, String> {
    match table.map(School::load) {
        None => key_by(Table::Ours, bytes, printed),
        Some(Ok(school)) => key_by(Table::School(&school), bytes, printed),
        Some(Err(fault)) => same_bytes(printed.bytes, &fault.print()).map(|()| refused_table_traits(bytes, &fault)),
    }
}
