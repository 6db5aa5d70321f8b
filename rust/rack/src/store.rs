//! A table in a file: its bytes and nothing else.
//!
//! A change is made on a copy, which is written to a new file beside the old one, synced, and renamed over it, and then
//! the folder is synced; so at every moment the name stands for the old table or for the new one, whole. Writers lock
//! the file; readers need no lock, since what they have opened is never written to.

use crate::failure::Failure;
use crate::name::shown;
use crate::output::complain;
use plotvuga::{Refusal, MOST_RECORDS, RECORD};
use std::ffi::OsString;
use std::fs::{self, File, Metadata, OpenOptions, TryLockError};
use std::io::{self, Read, Write};
use std::os::unix::fs::{fchown, MetadataExt, OpenOptionsExt};
use std::path::{Path, PathBuf};
use std::thread::sleep;
use std::time::{Duration, Instant};

/// The bytes of the longest table.
const MOST_BYTES: u64 = (MOST_RECORDS * RECORD) as u64;
/// How the name of a file ends that is to be renamed over the table.
pub const BESIDE: &str = "rack-new";
/// The rights of a file that is to get those of the table: whoever may not read the table can't open it before.
const OWN: u32 = 0o600;
/// The rights of a new table, less what the user's mask takes off.
const EVERYBODY: u32 = 0o666;
/// How often a writer that waits for another looks again.
const LOOK_AGAIN: Duration = Duration::from_millis(5);
/// After how long a writer says that it waits.
const SAY_SO: Duration = Duration::from_millis(500);

/// Why a table can't be had: the library refuses what stands in the file, or the system fails.
#[derive(Debug)]
pub enum NoTable {
    /// By number, with the file's length.
    Refused(Refusal, u64),
    Failed(Failure),
}

impl NoTable {
    /// The same where a table was to be changed.
    fn kept(self) -> NoTable {
        match self {
            NoTable::Failed(failure) => NoTable::Failed(failure.kept()),
            refused => refused,
        }
    }
}

impl From<Failure> for NoTable {
    fn from(failure: Failure) -> NoTable {
        NoTable::Failed(failure)
    }
}

/// The table of a file, to read.
pub fn read(path: &Path) -> Result<Vec<u8>, NoTable> {
    is_one(path)?;
    let file = File::open(path).map_err(|error| Failure::at("opening", path, &error))?;
    judged(path, &file)
}

/// A table whose file no other writer can change until this is dropped.
pub struct Held {
    /// The file itself, where the name leads to it by links.
    path: PathBuf,
    file: File,
    /// The bytes that were read when it was locked.
    pub bytes: Vec<u8>,
    /// When that was.
    pub since: Instant,
}

impl Held {
    /// Waits for other writers, so long and no longer, and reads the table.
    pub fn take(path: &Path, wait: Duration) -> Result<Held, NoTable> {
        let (from, mut said) = (Instant::now(), false);
        loop {
            let real = fs::canonicalize(path).map_err(|error| missing(path, &error))?;
            is_one(&real)?;
            // Opened to be written, though it never is: a table that may not be written to is not replaced.
            let file = OpenOptions::new().read(true).write(true).open(&real);
            let file = file.map_err(|error| Failure::at("opening", path, &error).kept())?;
            lock(path, &file, from, wait, &mut said)?;
            // Whoever had it before has put another file in its place.
            if is_at(&file, &real) {
                let bytes = judged(path, &file).map_err(NoTable::kept)?;
                return Ok(Held { path: real, file, bytes, since: Instant::now() });
            }
            // Where a file system gives files no lasting numbers, it would go on so for ever.
            if from.elapsed() >= wait.max(SAY_SO) {
                return Err(Failure::busy(path, wait).into());
            }
        }
    }

    /// Puts these bytes in the place of the old ones. On a failure the old table stands as it stood, unless the failure
    /// says otherwise.
    pub fn replace(self, bytes: &[u8]) -> Result<(), Failure> {
        let failed = |error: io::Error| Failure::at("writing", &self.path, &error).kept();
        let beside = beside(&self.path, BESIDE);
        let folder = folder(&self.path).map_err(Failure::kept)?;
        let old = self.file.metadata().map_err(failed)?;
        // One that was left when a writer was ended; none is at work, since this one has the lock.
        let _ = fs::remove_file(&beside);
        let file = begun(&beside, OWN).map_err(|error| match error.kind() {
            io::ErrorKind::AlreadyExists => Failure::in_the_way(&beside).kept(),
            _ => failed(error),
        })?;
        let written = as_before(&file, &old).and_then(|()| filled(file, bytes)).map_err(failed);
        // Who moves files about asks for no lock; what was put there since is not lost to this change.
        let put = written.and_then(|()| match is_at(&self.file, &self.path) {
            true => fs::rename(&beside, &self.path).map_err(failed),
            false => Err(Failure::moved(&self.path)),
        });
        if put.is_err() {
            let _ = fs::remove_file(&beside);
            return put;
        }
        synced(&folder).map_err(|error| Failure::unsynced(&self.path, &error))
    }
}

/// Makes a file of these bytes, where none is.
pub fn create(path: &Path, bytes: &[u8]) -> Result<(), Failure> {
    let failed = |error: io::Error| Failure::at("making", path, &error).not_made();
    let folder = folder(path).map_err(Failure::not_made)?;
    let (beside, file) = unused(path).map_err(failed)?;
    let made = filled(file, bytes).and_then(|()| put(&beside, path));
    let _ = fs::remove_file(&beside);
    match made {
        Err(error) if error.kind() == io::ErrorKind::AlreadyExists => Err(Failure::there_already(path)),
        Err(error) => Err(failed(error)),
        Ok(()) => synced(&folder).map_err(|error| Failure::unsynced(path, &error)),
    }
}

/// A new file beside this one, for a program that has no lock. The number of this process may have been that of one
/// which was ended and has left its file; then another name is tried.
fn unused(path: &Path) -> io::Result<(PathBuf, File)> {
    let mut tried = 0;
    loop {
        let beside = beside(path, &format!("rack-{}-{tried}", std::process::id()));
        match begun(&beside, EVERYBODY) {
            Err(error) if error.kind() == io::ErrorKind::AlreadyExists => tried += 1,
            begun => return begun.map(|file| (beside, file)),
        }
    }
}

/// Gives a finished file its name, and never takes that name from another file. Some file systems have no second name
/// for a file; there it is renamed when the name is seen to be free.
fn put(beside: &Path, path: &Path) -> io::Result<()> {
    match fs::hard_link(beside, path) {
        Err(error) if error.kind() != io::ErrorKind::AlreadyExists => match fs::symlink_metadata(path) {
            Ok(_) => Err(io::ErrorKind::AlreadyExists.into()),
            Err(missing) if missing.kind() == io::ErrorKind::NotFound => fs::rename(beside, path),
            Err(_) => Err(error),
        },
        done => done,
    }
}

/// A new file with no bytes yet, and no more rights than these.
fn begun(path: &Path, rights: u32) -> io::Result<File> {
    OpenOptions::new().write(true).create_new(true).mode(rights).open(path)
}

/// Gives a new file the owner of the old one where that is allowed, and its group at least, by which people share it;
/// the rights of a reader and a writer have to stay.
fn as_before(file: &File, old: &Metadata) -> io::Result<()> {
    if fchown(file, Some(old.uid()), Some(old.gid())).is_err() {
        let _ = fchown(file, None, Some(old.gid()));
    }
    file.set_permissions(old.permissions())
}

/// Writes the bytes of a new file and has the system put them on the disk.
fn filled(mut file: File, bytes: &[u8]) -> io::Result<()> {
    file.write_all(bytes)?;
    file.sync_all()
}

/// The name of a file beside this one. It is hidden, so that nobody takes it for a table or gives it to one.
fn beside(path: &Path, ending: &str) -> PathBuf {
    let mut name = OsString::from(".");
    name.push(path.file_name().unwrap_or_default());
    name.push(".");
    name.push(ending);
    path.with_file_name(name)
}

/// The folder of a file, to be synced.
fn folder(path: &Path) -> Result<File, Failure> {
    let folder = match path.parent() {
        Some(parent) if !parent.as_os_str().is_empty() => parent,
        _ => Path::new("."),
    };
    File::open(folder).map_err(|error| Failure::at("opening the folder", folder, &error))
}

/// Has the system put a folder's names on the disk. Some network file systems know no such thing for a folder, and more
/// than they do by themselves can't be had there.
fn synced(folder: &File) -> io::Result<()> {
    match folder.sync_all() {
        Err(error) if matches!(error.kind(), io::ErrorKind::InvalidInput | io::ErrorKind::Unsupported) => Ok(()),
        synced => synced,
    }
}

/// Sees that it is a file: reading from a pipe or a device might never end.
pub fn is_one(path: &Path) -> Result<(), Failure> {
    match fs::metadata(path).map_err(|error| missing(path, &error))?.is_file() {
        true => Ok(()),
        false => Err(Failure::no_file(path)),
    }
}

fn missing(path: &Path, error: &io::Error) -> Failure {
    match error.kind() {
        io::ErrorKind::NotFound => Failure::missing(path),
        _ => Failure::at("opening", path, error),
    }
}

/// The bytes of an open file, if they are a well-formed table. No more is read than a table can have.
fn judged(path: &Path, file: &File) -> Result<Vec<u8>, NoTable> {
    let failed = |error: io::Error| Failure::at("reading", path, &error);
    let length = file.metadata().map_err(failed)?.len();
    let mut bytes = Vec::new();
    file.take(MOST_BYTES + 1).read_to_end(&mut bytes).map_err(failed)?;
    match plotvuga::stored(&bytes) {
        Ok(_) => Ok(bytes),
        Err(refusal) => Err(NoTable::Refused(refusal, length)),
    }
}

/// Locks the file, within so long from then on. That it has to wait is said once, however often the file is replaced.
fn lock(path: &Path, file: &File, from: Instant, wait: Duration, said: &mut bool) -> Result<(), Failure> {
    loop {
        match file.try_lock() {
            Ok(()) => return Ok(()),
            Err(TryLockError::WouldBlock) if from.elapsed() >= wait => return Err(Failure::busy(path, wait)),
            Err(TryLockError::WouldBlock) => {}
            Err(TryLockError::Error(error)) => return Err(Failure::at("locking", path, &error).kept()),
        }
        if !*said && from.elapsed() >= SAY_SO {
            *said = true;
            complain(format_args!("another program is changing {}: waiting for it\n", shown(path)));
        }
        sleep(LOOK_AGAIN);
    }
}

/// Whether the name still stands for this file.
fn is_at(file: &File, path: &Path) -> bool {
    match (file.metadata(), fs::metadata(path)) {
        (Ok(here), Ok(there)) => (here.dev(), here.ino()) == (there.dev(), there.ino()),
        _ => false,
    }
}
