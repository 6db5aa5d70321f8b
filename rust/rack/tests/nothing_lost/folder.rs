//! A folder of a test's own, removed at its end, and tables to put into it.

use plotvuga::{Signature, Table};
use std::fs;
use std::os::unix::fs::{MetadataExt, PermissionsExt};
use std::path::{Path, PathBuf};

/// A folder that nobody else uses.
pub struct Folder {
    path: PathBuf,
}

impl Folder {
    /// Makes it, for the test of that name. Other users may look into it.
    pub fn new(test: &str) -> Folder {
        let name = format!("rack-{test}-{}", std::process::id());
        let path = fs::canonicalize(std::env::temp_dir()).unwrap().join(name);
        let _ = fs::remove_dir_all(&path);
        fs::create_dir(&path).unwrap();
        rights(&path, 0o755);
        Folder { path }
    }

    /// The path of something in it.
    pub fn at(&self, name: &str) -> PathBuf {
        self.path.join(name)
    }

    /// Makes a folder in it, with these rights.
    pub fn inner(&self, name: &str, mode: u32) -> PathBuf {
        let path = self.at(name);
        fs::create_dir(&path).unwrap();
        rights(&path, mode);
        path
    }
}

impl Drop for Folder {
    fn drop(&mut self) {
        // A read-only folder can't be emptied.
        for inner in fs::read_dir(&self.path).into_iter().flatten().flatten() {
            if inner.file_type().is_ok_and(|kind| kind.is_dir()) {
                let _ = fs::set_permissions(inner.path(), fs::Permissions::from_mode(0o755));
            }
        }
        let _ = fs::remove_dir_all(&self.path);
    }
}

/// Sets the rights of a file or a folder, whatever the user's mask is.
pub fn rights(path: &Path, mode: u32) {
    fs::set_permissions(path, fs::Permissions::from_mode(mode)).unwrap();
}

/// The names in a folder, sorted.
pub fn names(folder: &Path) -> Vec<String> {
    let entries = fs::read_dir(folder).unwrap();
    let mut names: Vec<String> = entries.map(|entry| entry.unwrap().file_name().into_string().unwrap()).collect();
    names.sort();
    names
}

/// All by which a file would be seen to have been touched, without reading it.
#[derive(Clone, Debug, PartialEq, Eq)]
pub struct Untouched {
    file: (u64, u64, u32, u32, u32),
    times: [(i64, i64); 2],
}

impl Untouched {
    /// Of what the path itself stands for.
    pub fn of(path: &Path) -> Untouched {
        let file = fs::symlink_metadata(path).unwrap();
        Untouched {
            file: (file.ino(), file.len(), file.mode(), file.uid(), file.gid()),
            times: [(file.mtime(), file.mtime_nsec()), (file.ctime(), file.ctime_nsec())],
        }
    }
}

/// A signature whose first reading is as given, the others 0.
pub fn reading(reading: u16) -> Signature {
    let mut readings = [0; 16];
    readings[0] = reading;
    Signature::readings(readings)
}

/// A table of so many records with these cards, each with its first reading.
pub fn table(records: usize, cards: &[(u32, u16)]) -> Table {
    let mut table = Table::new(records).unwrap();
    for (card, first) in cards {
        table.insert(*card, &reading(*first), 4).unwrap();
    }
    table
}

/// The cards of the paper's listing.
pub const LISTING: [(u32, u16); 6] = [(11, 50), (12, 80), (13, 20), (14, 52), (15, 40), (16, 78)];
