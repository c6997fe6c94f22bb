//! The order of faults: whichever of a call's faults are there, the first listed is given.

/// A refusal's number and what brings it about.
pub type Fault<Input> = (u32, fn(&mut Input));

/// Puts faults into an input, in this order; answers the least number, or `none` without faults.
pub fn put<Input>(faults: impl Iterator<Item = Fault<Input>>, none: u32, input: &mut Input) -> u32 {
    let numbers = faults.map(|(number, put)| {
        put(input);
        number
    });
    numbers.min().unwrap_or(none)
}

/// Every choice of faults, put into a fresh input, with the least of their numbers.
pub fn choices<Input>(faults: &[Fault<Input>], none: u32, fresh: impl Fn() -> Input) -> Vec<(u32, Input)> {
    let choose = |choice: usize| {
        let mut input = fresh();
        let chosen = (0..faults.len()).filter(|at| choice >> at & 1 == 1).map(|at| faults[at]);
        (put(chosen, none, &mut input), input)
    };
    (0..1 << faults.len()).map(choose).collect()
}
