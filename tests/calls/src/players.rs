//! What is tried of both players: random and coded instructions, the limits, the edges of groups, full patches and the
//! order of faults.

use crate::faults::{put, Fault};
use crate::inputs::{count_last_group, numbers, same, same_buffer, tree};
use reference::coder::{ADD, CUT, LOAD};
use reference::device::Device;
use reference::player::{LAMP_BYTES, LAST_LAMP, MAXIMUM_PAIRS};
use reference::random::Random;
use reference::report::Report;
use reference::shape::{edge_groups, edge_number, spread_groups, GROUP_EDGES};
use reference::tree::{groups, LAST_GROUP};

type Call = fn(&[u16], &[u16], &mut [u8]) -> u16;

/// A player's call in the library, and the reference's.
pub struct Player {
    pub name: &'static str,
    pub device: Device,
    pub library: Call,
    pub reference: Call,
    pub most_instructions: usize,
    /// After its kind, an instruction whose left operand is in register 0, the right one in 1, and the result in 0.
    pub operands: [u16; 3],
    /// What code ends in that has its answer in register 0.
    pub end: &'static [u16],
    /// So many instructions in no order that means anything, with all registers.
    pub random_code: fn(usize, &[u16], &mut Random) -> Vec<u16>,
    /// Every fault that 01 lists, to be put into the difference of groups 1 and 2.
    pub faults: &'static [Fault<Input>],
}

#[derive(Clone)]
pub struct Input {
    pub code: Vec<u16>,
    pub patch: Vec<u16>,
    pub bytes: usize,
}

/// What the bytes hold before a call.
pub fn bytes_before(count: usize) -> Vec<u8> {
    (0..count).map(|at| at as u8 ^ 0xa5).collect()
}

/// Few groups, small ones and those at the edges, or many up to the last.
fn some_groups(random: &mut Random) -> Vec<u16> {
    if random.one_in(3) {
        return (0..300).map(|_| random.between(1, usize::from(LAST_GROUP)) as u16).collect();
    }
    (2..=5).chain([LAST_GROUP - 1]).chain(edge_groups()).collect()
}

pub fn random_patch(pairs: usize, groups: &[u16], random: &mut Random) -> Vec<u16> {
    (0..pairs).flat_map(|_| [random.pick(groups), random.between(1, 512) as u16]).collect()
}

pub fn pairs(random: &mut Random) -> usize {
    let most = random.pick(&[0, 3, 30, 300, MAXIMUM_PAIRS]);
    random.between(0, most)
}

/// The bytes in which these lamps are lit.
fn bytes_of(lit: impl Fn(u16) -> bool) -> Vec<u8> {
    let byte = |byte: u16| (0..8).map(|bit| u8::from(lit(8 * byte + bit + 1)) << bit).sum();
    (0..LAST_LAMP / 8).map(byte).collect()
}

/// The lamp of the pair at a place of a full patch, in which each lamp comes eight times.
fn lamp_at(place: usize) -> u16 {
    (place % usize::from(LAST_LAMP)) as u16 + 1
}

impl Player {
    /// Compares the calls; answers the number and the bytes afterwards.
    pub fn compare(&self, name: &str, input: &Input, report: &mut Report) -> (u32, Vec<u8>) {
        let (mut lamps, mut expected_lamps) = (bytes_before(input.bytes), bytes_before(input.bytes));
        let expected = (self.reference)(&input.code, &input.patch, &mut expected_lamps);
        let answer = (self.library)(&input.code, &input.patch, &mut lamps);
        let result = same("answer", &answer, &expected).and_then(|()| same_buffer(&lamps, &expected_lamps));
        let text = numbers("code", &input.code) + &numbers("patch", &input.patch) + &format!("bytes {}\n", input.bytes);
        report.count(format!("{}: {name}", self.name));
        report.count(format!("{}: answered {expected}", self.name));
        count_last_group(&format!("{}, code", self.name), &input.code, answer.into(), report);
        count_last_group(&format!("{}, patch", self.name), &input.patch, answer.into(), report);
        report.saved_test(&format!("{}, {name}", self.name), result, &[("txt", text.as_bytes())]);
        (answer.into(), lamps)
    }

    /// The code is accepted with the patch and lights exactly these lamps.
    pub fn lights(&self, name: &str, code: &[u16], patch: &[u16], lit: impl Fn(u16) -> bool, report: &mut Report) {
        let input = Input { code: code.to_vec(), patch: patch.to_vec(), bytes: LAMP_BYTES };
        let answered = self.compare(name, &input, report);
        let result = same("number and bytes", &answered, &(0, bytes_of(lit)));
        report.test(&format!("{}, {name} by hand", self.name), result);
    }

    /// The code is refused with 23 and no byte is written.
    pub fn no_code(&self, name: &str, code: &[u16], patch: &[u16], report: &mut Report) {
        let input = Input { code: code.to_vec(), patch: patch.to_vec(), bytes: LAMP_BYTES };
        let (answered, lamps) = self.compare(name, &input, report);
        let result = same("number", &answered, &23).and_then(|()| same_buffer(&lamps, &bytes_before(LAMP_BYTES)));
        report.test(&format!("{}, {name} {code:?} by hand", self.name), result);
    }

    fn random_play(&self, random: &mut Random) -> Input {
        let most = random.pick(&[1, 4, 30, 300]);
        let groups = some_groups(random);
        let code = (self.random_code)(random.between(1, most), &groups, random);
        let patch = random_patch(pairs(random), &[&groups[..], &[6]].concat(), random);
        Input { code, patch, bytes: random.pick(&[64, 64, 65, 200]) }
    }

    fn coded_play(&self, random: &mut Random) -> Input {
        let tree = tree(20, random);
        let patch = random_patch(pairs(random), &groups(&tree), random);
        Input { code: self.device.encode(&tree).expect("a tree"), patch, bytes: LAMP_BYTES }
    }

    /// Any number changed, so that any refusal may be due.
    fn damaged_play(&self, random: &mut Random) -> Input {
        let mut input = self.random_play(random);
        for _ in 0..random.between(1, 3) {
            let small = random.pick(&[0, 1, 3, 4, 5, 6, 12, 13, LAST_LAMP, LAST_LAMP + 1]);
            let number = if random.one_in(2) { small } else { edge_number(random) };
            let list = if random.one_in(2) { &mut input.code } else { &mut input.patch };
            match list.len() {
                0 => list.push(number),
                length => match random.below(4) {
                    0 => list.push(number),
                    1 => list.truncate(random.below(length)),
                    _ => list[random.below(length)] = number,
                },
            }
        }
        input.bytes = random.pick(&[0, 63, 64, 64, 64, 64, 65]);
        input
    }

    /// Code for the union of these groups without some others: one instruction, and two for each further group.
    fn code(&self, groups: &[u16], without: &[u16]) -> Vec<u16> {
        let added = groups[1..].iter().map(|&group| (group, ADD));
        let further = added.chain(without.iter().map(|&group| (group, CUT)));
        let mut code = vec![LOAD, 0, groups[0], 0];
        for (group, kind) in further {
            code.extend([LOAD, 1, group, 0, kind]);
            code.extend(self.operands);
        }
        code.extend(self.end);
        code
    }

    /// Every fault alone and beside each other.
    fn fault_order(&self, report: &mut Report) {
        let fresh = Input { code: self.code(&[1], &[2]), patch: vec![1, 1, 2, 2, 1, 512], bytes: LAMP_BYTES };
        let faults = self.faults;
        // Later faults are put first, so that an earlier one that makes a list anew does not meet them.
        for first in 0..faults.len() {
            for second in first..faults.len() {
                let mut input = fresh.clone();
                let later = faults[second..=second].iter().filter(|_| second != first);
                let number = put(later.chain(&faults[first..=first]).copied(), 0, &mut input);
                let (answered, _) = self.compare("order of faults", &input, report);
                report.test(&format!("{}, order of faults by hand", self.name), same("number", &answered, &number));
            }
        }
    }

    fn limits(&self, report: &mut Report) {
        let mut random = Random::new(7);
        let many: Vec<u16> = (1..=LAST_GROUP).collect();
        let most = self.most_instructions;
        for count in [1, most - 1, most, most + 1] {
            for pairs in [0, 1, MAXIMUM_PAIRS - 1, MAXIMUM_PAIRS, MAXIMUM_PAIRS + 1] {
                let code = (self.random_code)(count, &edge_groups(), &mut random);
                let input = Input { code, patch: random_patch(pairs, &many, &mut random), bytes: LAMP_BYTES };
                let (answered, _) = self.compare("limit", &input, report);
                let number = [(22, count > most), (24, pairs > MAXIMUM_PAIRS), (0, true)];
                let due = number.into_iter().find(|&(_, is_due)| is_due).map_or(0, |(number, _)| number);
                report.test(&format!("{}, limit by hand", self.name), same("number", &answered, &due));
            }
        }
        let group = LAST_GROUP;
        for lamp in 1..=LAST_LAMP {
            let (code, patch) = (self.code(&[group], &[]), vec![group, lamp, group, lamp]);
            self.compare("each lamp alone", &Input { code, patch, bytes: LAMP_BYTES + 1 }, report);
        }
    }

    /// Group 5, with lamp 1, and a number: as a group of the code, of the patch, and of both, with lamp 512.
    fn group_edge(&self, number: u16, is_group: bool, report: &mut Report) {
        let code = |group: u16| self.code(&[5, group], &[]);
        let patch = |group: u16| vec![5, 1, group, LAST_LAMP];
        let name = format!("edge of groups {number}");
        for (code, patch, refused, lit) in [
            (code(number), patch(4), 23, &[1][..]),
            (code(4), patch(number), 25, &[1]),
            (code(number), patch(number), 23, &[1, LAST_LAMP]),
        ] {
            if is_group {
                self.lights(&name, &code, &patch, |lamp| lit.contains(&lamp), report);
            } else {
                let (answered, _) = self.compare(&name, &Input { code, patch, bytes: LAMP_BYTES }, report);
                report.test(&format!("{}, {name} by hand", self.name), same("number", &answered, &refused));
            }
        }
    }

    /// 4,096 pairs of as many groups. The groups before those of the patch have no lamps.
    fn patch_of_many_groups(&self, report: &mut Report) {
        let named = spread_groups(MAXIMUM_PAIRS);
        let unnamed: Vec<u16> = named[1..].iter().map(|group| group - 1).collect();
        let every_second: Vec<u16> = named.iter().copied().step_by(2).collect();
        let mixed: Vec<u16> =
            every_second.iter().zip(unnamed.iter().step_by(2)).flat_map(|(&one, &other)| [one, other]).collect();
        let mut pairs: Vec<[u16; 2]> =
            named.iter().enumerate().map(|(place, &group)| [group, lamp_at(place)]).collect();
        let orders: [(&str, fn(&mut [[u16; 2]])); 3] =
            [("rising", |_| {}), ("falling", |pairs| pairs.reverse()), ("any", |pairs| Random::new(11).shuffle(pairs))];
        for (order, put_in_order) in orders {
            put_in_order(&mut pairs);
            let (patch, name) = (pairs.concat(), format!("4,096 groups, {order} order"));
            self.lights(&name, &self.code(&named, &[]), &patch, |_| true, report);
            self.lights(&name, &self.code(&unnamed, &[]), &patch, |_| false, report);
            self.lights(&name, &self.code(&every_second, &[]), &patch, |lamp| lamp % 2 == 1, report);
            self.lights(&name, &self.code(&mixed, &[]), &patch, |lamp| lamp % 2 == 1, report);
            let all_less_second = self.code(&named[2..], &named[1..2]);
            self.lights(&name, &all_less_second, &patch, |lamp| lamp != lamp_at(1), report);
        }
        let lamps = pairs.iter().map(|&[group, lamp]| (group, Some(lamp)));
        let mut loads = lamps.chain(unnamed.iter().map(|&group| (group, None)));
        let result = loads.try_for_each(|(group, lamp)| self.one_load(group, &pairs.concat(), lamp));
        report.test(&format!("{}, each of 4,096 groups and the one before it alone", self.name), result);
    }

    /// Loaded alone, the group has this lamp only, or none.
    fn one_load(&self, group: u16, patch: &[u16], lamp: Option<u16>) -> Result<(), String> {
        let mut lamps = vec![0xa5; LAMP_BYTES];
        let answer = (self.library)(&self.code(&[group], &[]), patch, &mut lamps);
        same(&format!("number and bytes of {group}"), &(answer, lamps), &(0, bytes_of(|lit| Some(lit) == lamp)))
    }

    /// 4,096 pairs of one group: each lamp eight times, or one pair again and again. Other groups have no lamps.
    fn patch_of_one_group(&self, group: u16, report: &mut Report) {
        let others: Vec<u16> = spread_groups(MAXIMUM_PAIRS - 1).into_iter().filter(|&other| other != group).collect();
        let with_others = self.code(&[&others[..], &[group]].concat(), &[]);
        let each_lamp: Vec<u16> = (0..MAXIMUM_PAIRS).flat_map(|place| [group, lamp_at(place)]).collect();
        let one_pair = [group, LAST_LAMP].repeat(MAXIMUM_PAIRS);
        let name = format!("4,096 pairs of group {group}");
        for code in [&self.code(&[group], &[]), &with_others] {
            self.lights(&name, code, &each_lamp, |_| true, report);
            self.lights(&name, code, &one_pair, |lamp| lamp == LAST_LAMP, report);
        }
        for patch in [&each_lamp, &one_pair] {
            self.lights(&name, &self.code(&others, &[]), patch, |_| false, report);
        }
    }

    /// So many random plays, as many damaged ones, so many of coded trees, and all that is fixed.
    pub fn run(&self, random_plays: usize, coded_plays: usize, report: &mut Report) {
        let mut random = Random::new(6);
        for _ in 0..random_plays {
            self.compare("random", &self.random_play(&mut random), report);
            self.compare("damaged", &self.damaged_play(&mut random), report);
        }
        for _ in 0..coded_plays {
            self.compare("coded", &self.coded_play(&mut random), report);
        }
        self.limits(report);
        GROUP_EDGES.iter().for_each(|&(number, is_group)| self.group_edge(number, is_group, report));
        self.patch_of_many_groups(report);
        edge_groups().into_iter().for_each(|group| self.patch_of_one_group(group, report));
        self.fault_order(report);
    }
}
