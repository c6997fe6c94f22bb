//! Runs both key programs on many sheets, with schools' tables and without, and checks each key.

use crate::cases::{Case, Expected};
use crate::generate::random_sheet;
use crate::older;
use crate::tables::file::TableFile;
use crate::tables::{kinds, least};
use crate::workers::{share_out, Worker, WORKERS};
use reference::check::ensure;
use reference::device::Device;
use reference::key::{Held, Key};
use reference::key_check::{sheet_key, Printed};
use reference::key_traits::{Marks, Trait};
use reference::random::Random;
use reference::report::Report;
use reference::words::ours;
use std::path::{Path, PathBuf};
use std::process::Command;
use std::sync::Mutex;

/// Where the keys come from.
pub struct Subject<'a> {
    pub program: &'a Path,
    /// The key program for the older player, which gets the fixed sheets and a share of the others.
    pub older_program: &'a Path,
    /// Each worker writes its tables into a folder of its own in here, one over the other.
    pub folder: &'a Path,
    /// The fixed sheets with the categories that they belong to, before `random_sheets` and `table_sheets` of the seed.
    pub cases: &'a [(Option<String>, Case)],
    pub random_sheets: usize,
    /// Random sheets with a school's table.
    pub table_sheets: usize,
    pub seed: u64,
}

pub fn meets(expected: &Expected, key: &[u8], traits: &[Trait]) -> Result<(), String> {
    let met = match expected {
        Expected::Key(bytes) => key == bytes,
        Expected::Gathered => traits.contains(&Trait::Marked(Marks::Gatherable)),
        Expected::Reference => true,
    };
    ensure(met, "the key is not the one given for this sheet")
}

/// Counts the categories of a sheet whose keys passed; the sheet and its keys are saved if they failed.
fn add_result(
    name: &str,
    case: &Case,
    keys: &[(&str, &[u8])],
    result: Result<Vec<String>, String>,
    report: &Mutex<Report>,
) {
    let mut files = vec![("sheet", &case.bytes[..])];
    files.extend(keys);
    files.extend(case.table.contents().map(|table| ("table", table)));
    let mut report = report.lock().unwrap();
    let result = result.map(|categories| categories.into_iter().for_each(|category| report.count(category)));
    report.saved_test(name, result, &files);
}

/// Whether a key says 19.
fn says_19(key: &[u8]) -> Result<bool, String> {
    let key = Key::parse(Device::Newer, key).ok_or("the bytes are not those of a key")?;
    Ok(matches!(key.held, Some(Held::Cannot(_))))
}

impl Subject<'_> {
    /// The sheet with this number, and the category of its kind.
    fn sheet(&self, number: usize) -> (String, Case) {
        if let Some((category, case)) = self.cases.get(number) {
            return (category.clone().unwrap_or_else(|| "sheets: fixed".to_string()), case.clone());
        }
        let random_number = number - self.cases.len();
        if random_number < self.random_sheets {
            let (kind, bytes) = random_sheet(random_number as u64, self.seed);
            let name = format!("sheet {random_number} ({kind})");
            return (format!("sheets: {kind}"), Case::new(name, bytes, Expected::Reference));
        }
        let table_number = random_number - self.random_sheets;
        let (kind, (table, bytes)) = kinds::random_pair(table_number as u64, self.seed);
        let name = format!("sheet {table_number} with a table ({kind})");
        let case = Case::new(name, bytes, Expected::Reference);
        (least::kind_category(kind), Case { table: TableFile::Bytes(table), ..case })
    }

    fn worker_folder(&self, number: usize) -> PathBuf {
        self.folder.join(format!("worker-{number}"))
    }

    fn printed(&self, program: &Path, case: &Case, worker: &Worker) -> Result<Vec<u8>, String> {
        let folder = self.worker_folder(worker.number);
        let argument = case.table.argument(&folder).map_err(|error| format!("{}: {error}", folder.display()))?;
        worker.watched.run(Command::new(program).args(argument), &case.bytes)
    }

    /// A key by a school's table beside the program's key by our own: the same verdict, and for our own words the same
    /// key if nothing is refused for an `I`.
    fn beside_own_table(&self, case: &Case, key: &[u8], traits: &[Trait], worker: &Worker) -> Result<(), String> {
        let is_marked = |seen: &Trait| matches!(seen, Trait::Marked(marks) if *marks != Marks::None);
        let is_ours = case.table == TableFile::Bytes(ours().print());
        let same_due = is_ours && traits.contains(&Trait::SchoolWithoutIntersection);
        if case.table == TableFile::NotNamed || !(same_due || traits.iter().any(is_marked)) {
            return Ok(());
        }
        let own = worker.watched.run(&mut Command::new(self.program), &case.bytes)?;
        ensure(says_19(key)? == says_19(&own)?, "HELD 19 with one table and not with the other")?;
        ensure(!same_due || own == key, "another key by our own words as a school's")
    }

    fn check(&self, case: &Case, key: &[u8], seed: u64, worker: &Worker) -> Result<Vec<Trait>, String> {
        let printed = Printed { device: Device::Newer, bytes: key, random: &mut Random::new(seed) };
        let traits = sheet_key(case.table.contents(), &case.bytes, printed)?;
        self.beside_own_table(case, key, &traits, worker)?;
        meets(&case.expected, key, &traits).map(|()| traits)
    }

    fn try_sheet(&self, number: usize, worker: &Worker, report: &Mutex<Report>) {
        let (category, case) = self.sheet(number);
        let printed = self.printed(self.program, &case, worker);
        let key = printed.clone().unwrap_or_default();
        let result = printed.and_then(|key| self.check(&case, &key, self.seed ^ number as u64, worker));
        let with_table = case.table != TableFile::NotNamed;
        let name = |seen: &Trait| if with_table { least::category(seen) } else { format!("{seen:?}") };
        let categories = result.map(|traits| traits.iter().map(name).collect());
        report.lock().unwrap().count(category);
        add_result(&case.name, &case, &[("key", &key)], categories, report);
        if number < self.cases.len() || number % older::SHARE == 0 {
            self.try_older(number, &case, &key, worker, report);
        }
    }

    /// The same sheet, to the older key program.
    fn try_older(&self, number: usize, case: &Case, key: &[u8], worker: &Worker, report: &Mutex<Report>) {
        let printed = self.printed(self.older_program, case, worker);
        let older = printed.clone().unwrap_or_default();
        let categories = printed.and_then(|older| older::check(case, key, &older, self.seed ^ number as u64));
        add_result(&format!("{}, older", case.name), case, &[("key", key), ("older", &older)], categories, report);
    }

    pub fn try_all(&self, report: Report) -> std::io::Result<Report> {
        for number in 0..WORKERS {
            std::fs::create_dir_all(self.worker_folder(number))?;
        }
        let report = Mutex::new(report);
        let count = self.cases.len() + self.random_sheets + self.table_sheets;
        share_out(count, "sheets", |number, worker| self.try_sheet(number, worker, &report));
        for number in 0..WORKERS {
            std::fs::remove_dir_all(self.worker_folder(number))?;
        }
        Ok(report.into_inner().unwrap())
    }
}
