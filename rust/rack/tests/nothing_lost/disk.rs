//! A file system that is really full, and one that is really read-only: small ones in memory, where they may be
//! mounted.

use crate::folder::{names, Folder};
use crate::person::left_out;
use crate::process::run;
use std::fs;
use std::os::unix::fs::MetadataExt;
use std::process::Command;

/// Mounts a file system of 20 pages on $2, seen by this script alone, with a table of 8 pages made by $1 in it. What is
/// tried on it follows; all that is said goes to standard output, so that its order is seen.
const MOUNTED: &str = "\
exec 2>&1
rack=$1
mount -t tmpfs -o size=80k none \"$2\" && cd \"$2\" || exit 1
tell() { echo \"$1: $2\"; }
\"$rack\" new t --records 512 > /dev/null && \"$rack\" t insert 11 readings 50 > /dev/null || exit 1
before=$(cksum < t)
same() { test \"$(cksum < t)\" = \"$before\" && echo same || echo changed; }
";

const FULL: &str = "\
cat /dev/zero > filler 2> /dev/null
\"$rack\" t insert 12 readings 80; tell insert $?
same
\"$rack\" t clear all; tell clear $?
same
\"$rack\" t search radius 5 readings 48; tell search $?
\"$rack\" t check; tell check $?
\"$rack\" new u; tell new $?
echo *
rm filler
\"$rack\" t insert 12 readings 80; tell insert $?
echo *
";

const READ_ONLY: &str = "\
cd / && mount -t tmpfs -o remount,ro,size=80k none \"$2\" && cd \"$2\" || exit 1
\"$rack\" t insert 12 readings 80; tell insert $?
same
\"$rack\" t search radius 5 readings 48; tell search $?
\"$rack\" new u; tell new $?
echo *
";

/// Runs a script on a file system of its own, and gives its lines; none, and that is said, where that is not allowed.
fn mounted(test: &str, rest: &str) -> Option<Vec<String>> {
    let folder = Folder::new(test);
    let inner = folder.inner("inner", 0o755);
    // Root needs no other names for users to mount something.
    let apart = if fs::metadata(&inner).unwrap().uid() == 0 { "-m" } else { "-rm" };
    let tried = Command::new("unshare").args([apart, "mount", "-t", "tmpfs", "none"]).arg(&inner).output();
    if !tried.is_ok_and(|tried| tried.status.success()) {
        left_out(&format!("{test}: no file system may be mounted here"));
        return None;
    }
    let script = format!("{MOUNTED}{rest}");
    let mut command = Command::new("unshare");
    command.args([apart, "sh", "-c", &script, "sh", env!("CARGO_BIN_EXE_rack")]).arg(&inner);
    let ended = run(&mut command);
    assert_eq!(ended.code, Some(0), "{ended:?}");
    assert!(names(&inner).is_empty(), "it was seen by the script alone");
    // The whole path of the table, or its name alone.
    let out = ended.out.replace(&format!("{}/", inner.display()), "");
    Some(out.lines().map(String::from).collect())
}

#[test]
fn a_full_disk_keeps_its_table() {
    let Some(lines) = mounted("full", FULL) else { return };
    let expected = [
        "rack: writing t: No space left on device; the table stands as it stood before",
        "insert: 3",
        "same",
        "rack: writing t: No space left on device; the table stands as it stood before",
        "clear: 3",
        "same",
        "1 card within 5; 1 of 1 stored card compared",
        "  card 11, 2 away",
        "search: 0",
        "sound: every search finds all that is near among 1 stored card",
        "check: 0",
        "rack: making u: No space left on device; nothing was made",
        "new: 3",
        "filler t",
        "card 12 stored; 1 distance worked out",
        "insert: 0",
        "t",
    ];
    assert_eq!(lines, expected);
}

#[test]
fn a_read_only_disk_keeps_its_table() {
    let Some(lines) = mounted("read-only", READ_ONLY) else { return };
    let expected = [
        "rack: opening t: Read-only file system; the table stands as it stood before",
        "insert: 3",
        "same",
        "1 card within 5; 1 of 1 stored card compared",
        "  card 11, 2 away",
        "search: 0",
        "rack: making u: Read-only file system; nothing was made",
        "new: 3",
        "t",
    ];
    assert_eq!(lines, expected);
}
