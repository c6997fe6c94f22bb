//! The argument that a key program is given.

use std::ffi::OsString;
use std::io::Result;
use std::path::Path;

/// The file of a school's table.
#[derive(Clone, PartialEq, Eq)]
pub enum TableFile {
    /// No argument: our own table.
    NotNamed,
    Bytes(Vec<u8>),
    /// A name that no file has.
    Missing,
    /// A name of no bytes.
    EmptyName,
    /// The name of a folder.
    Folder,
    /// A name that is longer than a path may be.
    LongName,
}

impl TableFile {
    /// The bytes that loading gets: none of a file that cannot be opened.
    pub fn contents(&self) -> Option<&[u8]> {
        match self {
            TableFile::NotNamed => None,
            TableFile::Bytes(bytes) => Some(bytes),
            _ => Some(&[]),
        }
    }

    /// The program's argument; a file is written into this folder.
    pub fn argument(&self, folder: &Path) -> Result<Option<OsString>> {
        Ok(match self {
            TableFile::NotNamed => None,
            TableFile::Bytes(bytes) => {
                let path = folder.join("table");
                std::fs::write(&path, bytes)?;
                Some(path.into())
            }
            TableFile::Missing => Some(folder.join("no-such-table").into()),
            TableFile::EmptyName => Some(OsString::new()),
            TableFile::Folder => Some(folder.into()),
            TableFile::LongName => Some("t".repeat(100_000).into()),
        })
    }
}
