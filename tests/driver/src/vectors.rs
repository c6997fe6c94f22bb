//! The files of a folder and their one right answer.

use crate::cases::{Case, Expected};
use crate::marks::pair::{File, Pair};
use crate::tables::file::TableFile;
use std::fs::read;
use std::io::{Error, Result};
use std::path::{Path, PathBuf};

/// The files of this extension; there must be some.
fn paths(folder: &Path, extension: &str) -> Result<Vec<PathBuf>> {
    let mut paths: Vec<PathBuf> = std::fs::read_dir(folder)?.map(|entry| Ok(entry?.path())).collect::<Result<_>>()?;
    paths.retain(|path| path.extension().is_some_and(|found| found == extension));
    paths.sort();
    if paths.is_empty() {
        return Err(Error::other(format!("the folder of vectors holds no {extension}")));
    }
    Ok(paths)
}

/// The files that were right after request 5 have this before their names.
const AFTER_REQUEST_5: &str = "request-5-";

/// Whether no file from after request 5 has anything of request 6: the line `I`, a key's line BOTH or a lift refused
/// with 27. There must be some.
pub fn before_both(folder: &Path) -> Result<bool> {
    let newer = |line: &[u8]| line == b"I" || line.starts_with(b"BOTH") || line.starts_with(b"LIFT\t27");
    let mut found = false;
    for entry in std::fs::read_dir(folder)? {
        let entry = entry?;
        if !entry.file_name().to_string_lossy().starts_with(AFTER_REQUEST_5) {
            continue;
        }
        found = true;
        if read(entry.path())?.split(|&byte| byte == b'\n').any(newer) {
            return Ok(false);
        }
    }
    Ok(found)
}

fn name(path: &Path) -> String {
    format!("vector {}", path.display())
}

/// The key in a sheet's file of this extension, if there is one.
fn key_beside(path: &Path, extension: &str) -> Result<Option<Expected>> {
    let path = path.with_extension(extension);
    Ok(if path.exists() { Some(Expected::Key(read(path)?)) } else { None })
}

/// NAME.sheet with NAME.key, NAME.older or both, and NAME.table where there is one.
fn sheet(path: &Path) -> Result<Case> {
    let (key, older) = (key_beside(path, "key")?, key_beside(path, "older")?);
    if key.is_none() && older.is_none() {
        return Err(Error::other(format!("{} has no key", path.display())));
    }
    let mut case = Case::new(name(path), read(path)?, key.unwrap_or(Expected::Reference));
    if let Some(older) = older {
        case.older = older;
    }
    let table = path.with_extension("table");
    if table.exists() {
        case.table = TableFile::Bytes(read(table)?);
    }
    Ok(case)
}

pub fn sheets(folder: &Path) -> Result<Vec<Case>> {
    paths(folder, "sheet")?.iter().map(|path| sheet(path)).collect()
}

/// NAME.question and NAME.candidate with NAME.mark.
pub fn pairs(folder: &Path) -> Result<Vec<Pair>> {
    let pair = |path: &PathBuf| {
        Ok(Pair {
            name: name(path),
            question: File::Bytes(read(path)?),
            candidate: File::Bytes(read(path.with_extension("candidate"))?),
            due: Some(read(path.with_extension("mark"))?),
        })
    };
    paths(folder, "question")?.iter().map(pair).collect()
}
