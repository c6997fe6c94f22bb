//! The older key program's key for a sheet, checked by itself and beside the other program's, and what must be met.

use crate::cases::Case;
use crate::sheets::meets;
use crate::tables::file::TableFile;
use reference::coder::{ADD, BOTH, CUT};
use reference::device::Device;
use reference::key_check::{sheet_key, Printed};
use reference::key_pair::both_keys;
use reference::key_traits::{Marks, Trait};
use reference::older_traits::OlderTrait;
use reference::random::Random;

/// Every so many random sheets one is given to the older key program too.
pub const SHARE: usize = 3;

/// The category of a sheet that shows this.
fn category(with_table: bool, seen: &dyn std::fmt::Debug) -> String {
    format!("older{}: {seen:?}", if with_table { ", with a table" } else { "" })
}

/// What is counted of the other program's keys and for the older one again.
fn is_counted(seen: &Trait) -> bool {
    use Trait::*;
    matches!(seen, Refused(_) | TableRefused(_) | Marked(_) | LiftDone | LiftRefused(_) | LongestLoad | MostNodes)
}

/// Checks the older key of a case beside the other program's; answers the categories that it belongs to.
pub fn check(case: &Case, key: &[u8], older: &[u8], seed: u64) -> Result<Vec<String>, String> {
    let printed = Printed { device: Device::Older, bytes: older, random: &mut Random::new(seed) };
    let traits = sheet_key(case.table.contents(), &case.bytes, printed)?;
    meets(&case.older, older, &traits)?;
    let of_code = both_keys(&case.bytes, key, older, &mut Random::new(seed + 1))?;
    let with_table = case.table != TableFile::NotNamed;
    let counted = traits.iter().filter(|seen| is_counted(seen)).map(|seen| category(with_table, seen));
    Ok(counted.chain(of_code.iter().map(|seen| category(with_table, seen))).collect())
}

/// How many of a thousand sheets must show each of these, with a table and without.
fn least_of_code() -> Vec<(OlderTrait, usize)> {
    use OlderTrait::*;
    let mut least = vec![(ShowOf0, 300), (ShowOfAnother, 200), (LeftOperandLater, 400), (LoadBelowWaiting, 300)];
    for (kind, first_larger, second_larger) in [(ADD, 250, 400), (CUT, 250, 400), (BOTH, 100, 150)] {
        least.extend([(FirstLarger(kind), first_larger), (SecondLarger(kind), second_larger)]);
    }
    let highest = [20, 100, 100, 80, 30, 6, 2, 3, 1];
    least.extend((0..).map(HighestRegister).zip(highest));
    least
}

fn least_of_sheets(with_table: bool) -> Vec<(Trait, usize)> {
    use Trait::*;
    let marked = [Marks::None, Marks::GatheredAlready, Marks::Gatherable, Marks::NotGatherable];
    let mut least: Vec<(Trait, usize)> = marked.map(|marks| (Marked(marks), 30)).to_vec();
    least.extend([13, 14, 15, 16, 27].map(|number| (LiftRefused(number), 5)));
    let refused: &[u16] = if with_table { &[2, 4, 7] } else { &[2, 3, 4, 5, 6, 7, 8, 9, 10] };
    least.extend(refused.iter().map(|&number| (Refused(number), 2)));
    least.extend([(LiftDone, 500), (MostNodes, 3)]);
    least
}

fn least(with_table: bool, sheets: usize) -> Vec<(String, usize)> {
    let of_code = least_of_code().into_iter().map(|(seen, count)| (category(with_table, &seen), count));
    let of_sheets = least_of_sheets(with_table).into_iter().map(|(seen, count)| (category(with_table, &seen), count));
    of_code.chain(of_sheets).map(|(name, count)| (name, count * (sheets / SHARE) / 1000)).collect()
}

/// The categories when so many random sheets are tried, of which the older key program gets its share.
pub fn least_counts(random_sheets: usize, table_sheets: usize, long_keys: usize) -> Vec<(String, usize)> {
    let mut counts = [least(false, random_sheets), least(true, table_sheets)].concat();
    counts.push((category(false, &Trait::LongestLoad), long_keys));
    counts.extend([28, 29].map(|number| (category(true, &Trait::TableRefused(number)), 100)));
    counts
}
