//! Kinds of random inputs, each with its share of all.

use reference::random::Random;

/// A kind, how many of all the shares are of it, and how an input of it is made.
pub type Kind<Made> = (&'static str, usize, fn(&mut Random) -> Made);

/// The sum of the shares.
pub fn shares<Made>(kinds: &[Kind<Made>]) -> usize {
    kinds.iter().map(|(_, share, _)| share).sum()
}

/// The kind of a number, by the shares, and an input of it. The same number and start always give the same.
pub fn random_input<Made>(kinds: &[Kind<Made>], number: u64, start: u64) -> (&'static str, Made) {
    let mut random = Random::new(start.wrapping_add(number));
    random.next();
    let mut choice = number as usize % shares(kinds);
    for &(name, share, make) in kinds {
        if choice < share {
            return (name, make(&mut random));
        }
        choice -= share;
    }
    unreachable!("the choice is below the sum of the shares")
}
