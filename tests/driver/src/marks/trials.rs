//! Runs a mark program on many pairs of files and checks each line.

use super::kinds::random_pair;
use super::pair::{File, Pair};
use crate::workers::{share_out, Worker, WORKERS};
use reference::device::Device;
use reference::key::Key;
use reference::key_check::decode;
use reference::mark_check::{printed_mark, same_line, Trait};
use reference::report::Report;
use reference::sheet::print_tree;
use std::path::{Path, PathBuf};
use std::process::Command;
use std::sync::Mutex;

/// Where the marks come from.
pub struct Subject<'a> {
    pub key_program: &'a Path,
    pub mark_program: &'a Path,
    /// Each worker writes its files into a folder of its own in here, one pair over the other.
    pub folder: &'a Path,
    /// The fixed pairs, before `random_pairs` of the seed.
    pub cases: &'a [Pair],
    pub random_pairs: usize,
    pub seed: u64,
}

/// The bytes of a question's file and of a candidate's.
#[derive(Default)]
struct Contents {
    question: Vec<u8>,
    candidate: Vec<u8>,
}

impl Subject<'_> {
    /// The kind and the pair with this number.
    fn pair(&self, number: usize) -> (&'static str, Pair) {
        match self.cases.get(number) {
            Some(case) => ("fixed", case.clone()),
            None => random_pair((number - self.cases.len()) as u64, self.seed),
        }
    }

    fn worker_folder(&self, number: usize) -> PathBuf {
        self.folder.join(format!("worker-{number}"))
    }

    /// What the key program returns for a question, typed by a candidate.
    fn tree_of_key(&self, question: &[u8], worker: &Worker) -> Result<Vec<u8>, String> {
        let printed = worker.watched.run(&mut Command::new(self.key_program), question)?;
        let key = Key::parse(Device::Newer, &printed).ok_or("the question's key is none")?;
        let tree = decode(key.device, &key.code).ok_or("the key's instructions do not compute a tree")?;
        Ok(print_tree(&tree))
    }

    fn contents(&self, pair: &Pair, worker: &Worker) -> Result<Contents, String> {
        let bytes = |file: &File| if let File::Bytes(bytes) = file { bytes.clone() } else { Vec::new() };
        let question = bytes(&pair.question);
        let candidate = match &pair.candidate {
            File::TreeOfKey => self.tree_of_key(&question, worker)?,
            file => bytes(file),
        };
        Ok(Contents { question, candidate })
    }

    /// Writes the files and runs the program.
    fn printed(&self, pair: &Pair, contents: &Contents, worker: &Worker) -> Result<Vec<u8>, String> {
        let folder = self.worker_folder(worker.number);
        let mut command = Command::new(self.mark_program);
        let files =
            [("question", &pair.question, &contents.question), ("candidate", &pair.candidate, &contents.candidate)];
        for (name, file, bytes) in files {
            match file {
                File::NotNamed => break,
                File::Missing => command.arg(folder.join("no-such-file")),
                File::Bytes(_) | File::TreeOfKey => {
                    let path = folder.join(name);
                    std::fs::write(&path, bytes).map_err(|error| format!("{}: {error}", path.display()))?;
                    command.arg(path)
                }
            };
        }
        worker.watched.run(&mut command, &[])
    }

    fn check(pair: &Pair, contents: &Contents, printed: &[u8]) -> Result<Vec<Trait>, String> {
        if let Some(due) = &pair.due {
            same_line(printed, due, "the pair's kind")?;
        }
        printed_mark(&contents.question, &contents.candidate, printed)
    }

    fn try_pair(&self, number: usize, worker: &Worker, report: &Mutex<Report>) {
        let (kind, pair) = self.pair(number);
        let (mut contents, mut printed) = (Contents::default(), Vec::new());
        let mut trial = || {
            contents = self.contents(&pair, worker)?;
            printed = self.printed(&pair, &contents, worker)?;
            Self::check(&pair, &contents, &printed)
        };
        let result = trial();
        let mut report = report.lock().unwrap();
        report.count(format!("pairs: {kind}"));
        for seen in result.iter().flatten() {
            report.count(format!("{seen:?}"));
        }
        let files = [("question", &contents.question[..]), ("candidate", &contents.candidate), ("mark", &printed)];
        report.saved_test(&pair.name, result.map(|_| ()), &files);
    }

    pub fn try_all(&self, report: Report) -> std::io::Result<Report> {
        for number in 0..WORKERS {
            std::fs::create_dir_all(self.worker_folder(number))?;
        }
        let report = Mutex::new(report);
        let count = self.cases.len() + self.random_pairs;
        share_out(count, "pairs", |number, worker| self.try_pair(number, worker, &report));
        for number in 0..WORKERS {
            std::fs::remove_dir_all(self.worker_folder(number))?;
        }
        Ok(report.into_inner().unwrap())
    }
}
