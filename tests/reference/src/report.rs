//! Counting what passed and keeping what failed.

use crate::check::ensure;
use std::collections::BTreeMap;
use std::path::{Path, PathBuf};

/// So many failures are saved and printed; the rest are only counted.
const FAILURES_SHOWN: usize = 20;

pub struct Report {
    pub passed: usize,
    pub failed: usize,
    counts: BTreeMap<String, usize>,
    directory: PathBuf,
}

impl Report {
    pub fn new(directory: PathBuf) -> Report {
        Report { passed: 0, failed: 0, counts: BTreeMap::new(), directory }
    }

    /// Counts a category that an input belongs to.
    pub fn count(&mut self, category: String) {
        *self.counts.entry(category).or_default() += 1;
    }

    /// A test whose name says all.
    pub fn test(&mut self, name: &str, result: Result<(), String>) {
        match result {
            Ok(()) => self.passed += 1,
            Err(fault) => {
                self.failed += 1;
                println!("FAILED {name}: {fault}");
            }
        }
    }

    /// A test whose input is saved if it fails: contents by extension.
    pub fn saved_test(&mut self, name: &str, result: Result<(), String>, files: &[(&str, &[u8])]) {
        let failed = result.is_err();
        if failed && self.failed >= FAILURES_SHOWN {
            self.failed += 1;
            return;
        }
        self.test(name, result);
        if failed {
            let path = self.directory.join(format!("failure-{}", self.failed));
            match save(&path, files) {
                Ok(()) => println!("  saved as {}.*", path.display()),
                Err(error) => println!("  could not be saved: {error}"),
            }
        }
    }

    /// Prints every category's count and tests that each of `least` was met often enough.
    pub fn categories(&mut self, least: &[(String, usize)]) {
        for (category, count) in &self.counts {
            println!("  {count:>6} {category}");
        }
        self.categories_met(least);
    }

    /// Tests that each category of `least` was met often enough.
    pub fn categories_met(&mut self, least: &[(String, usize)]) {
        for (category, least) in least {
            let count = self.counts.get(category).copied().unwrap_or(0);
            let fault = format!("met {count} times, {least} are due");
            self.test(category, ensure(count >= *least, &fault));
        }
    }

    /// Prints the line that ends a run; answers whether all passed.
    pub fn finish(&self, name: &str) -> bool {
        println!("{name}: {} passed, {} failed", self.passed, self.failed);
        self.failed == 0
    }
}

fn save(path: &Path, files: &[(&str, &[u8])]) -> std::io::Result<()> {
    std::fs::create_dir_all(path.parent().unwrap_or(Path::new(".")))?;
    files.iter().try_for_each(|(extension, contents)| std::fs::write(path.with_extension(extension), contents))
}
