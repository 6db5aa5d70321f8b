//! Real rights: a folder and a file that may not be written to, a table behind a link, and what a new file has to keep
//! of the old one.

use crate::folder::{names, reading, rights, table, Folder, Untouched, LISTING};
use crate::person::{left_out, Person, NOBODY};
use crate::process::{asked, run, Running};
use crate::shim::Shim;
use std::fs;
use std::os::unix::fs::{chown, symlink, MetadataExt, PermissionsExt};
use std::path::{Path, PathBuf};

/// All that changes a table.
const CHANGES: [&str; 3] = ["insert 20 readings 33", "delete 12", "clear all"];

/// Puts the listing's table into a folder, with these rights.
fn put(folder: &Path, mode: u32) -> PathBuf {
    let file = folder.join("t");
    fs::write(&file, table(16, &LISTING).bytes()).unwrap();
    rights(&file, mode);
    file
}

/// This person can change nothing, is told so, and can still search.
fn only_reads(person: &Person, folder: &Path, file: &Path) {
    let before = (Untouched::of(file), fs::read(file).unwrap());
    for words in CHANGES {
        let (code, said) = person.asks(file, words);
        assert_eq!(code, Some(3), "{words}: {said}");
        assert!(said.contains("Permission denied; the table stands as it stood before"), "{words}: {said}");
        assert_eq!((Untouched::of(file), fs::read(file).unwrap()), before, "{words}");
        assert_eq!(names(folder), ["t"], "{words}");
    }
    let (code, said) = person.asks(file, "search radius 5 readings 48");
    assert!(code == Some(0) && said.contains("card 11, 2 away") && said.contains("card 14, 4 away"), "{said}");
}

#[test]
fn a_read_only_folder_keeps_its_table() {
    let folder = Folder::new("read-only-folder");
    let Some(person) = Person::in_folder(&folder) else { return };
    let inner = folder.inner("inner", 0o755);
    let file = put(&inner, 0o666);
    rights(&inner, 0o555);
    only_reads(&person, &inner, &file);
    let (code, said) = person.asks(Path::new("new"), inner.join("u").to_str().unwrap());
    assert!(code == Some(3) && said.contains("Permission denied; nothing was made"), "{said}");
    assert_eq!(names(&inner), ["t"]);
}

#[test]
fn a_read_only_file_is_not_replaced() {
    let folder = Folder::new("read-only-file");
    let Some(person) = Person::in_folder(&folder) else { return };
    let inner = folder.inner("inner", 0o777);
    let file = put(&inner, 0o444);
    only_reads(&person, &inner, &file);
}

#[test]
fn a_table_behind_links_is_changed_where_it_is() {
    let folder = Folder::new("links");
    let (here, there) = (folder.inner("here", 0o755), folder.inner("there", 0o755));
    let file = put(&there, 0o644);
    symlink("../there/t", here.join("second")).unwrap();
    symlink("second", here.join("first")).unwrap();
    assert_eq!(run(&mut asked(&here.join("first"), CHANGES[0])).code, Some(0));
    let mut expected = table(16, &LISTING);
    expected.insert(20, &reading(33), 4).unwrap();
    assert_eq!(fs::read(file).unwrap(), expected.bytes());
    assert_eq!(fs::read_link(here.join("first")).unwrap(), Path::new("second"));
    assert_eq!(fs::read_link(here.join("second")).unwrap(), Path::new("../there/t"));
    assert_eq!((names(&here), names(&there)), (vec!["first".into(), "second".into()], vec!["t".to_string()]));
}

#[test]
fn a_changed_table_keeps_its_rights() {
    let folder = Folder::new("modes");
    let inner = folder.inner("inner", 0o755);
    for mode in [0o600, 0o644, 0o664, 0o666, 0o640, 0o777] {
        let file = put(&inner, mode);
        let before = fs::metadata(&file).unwrap().ino();
        assert_eq!(run(&mut asked(&file, CHANGES[0])).code, Some(0));
        let after = fs::metadata(&file).unwrap();
        assert_eq!(after.permissions().mode() & 0o7777, mode);
        assert_ne!(after.ino(), before, "it was replaced, so the rights were set anew");
    }
}

#[test]
fn a_table_that_is_shut_is_shut_while_it_is_changed() {
    let folder = Folder::new("shut");
    let shim = Shim::build(&folder);
    let file = put(&shim.folder, 0o600);
    let mut command = asked(&file, CHANGES[0]);
    shim.over(&mut command, 0, "none");
    assert_eq!(run(&mut command).code, Some(0));
    // Between the making of the new file and its getting the old one's rights.
    let calls = shim.calls();
    let made = calls.iter().position(|call| call.name == "create").unwrap();
    let mut command = asked(&file, CHANGES[1]);
    shim.over(&mut command, calls[made + 1].number, "hold");
    let mut holder = Running::start(&mut command);
    assert_eq!(holder.complaint(), "held\n");
    let new = fs::metadata(shim.folder.join(".t.rack-new")).unwrap();
    assert_eq!(new.mode() & 0o077, 0, "whoever may not read the table could open the new one");
    holder.kill();
}

#[test]
fn a_changed_table_keeps_its_owner_or_at_least_its_group() {
    let (owner, group, other) = (64001, 64002, 64003);
    let folder = Folder::new("owners");
    let Some(person) = Person::in_folder(&folder) else { return };
    if !person.is_root {
        return left_out("owners: only root can give a file away");
    }
    // New files in this folder get its group, so that the table's own has to be set.
    let inner = folder.inner("inner", 0o755);
    let file = put(&inner, 0o660);
    chown(&inner, Some(NOBODY), Some(other)).unwrap();
    rights(&inner, 0o2755);
    chown(&file, Some(owner), Some(group)).unwrap();
    let owners = || fs::metadata(&file).map(|file| (file.uid(), file.gid(), file.mode() & 0o7777)).unwrap();
    assert_eq!(run(&mut asked(&file, "insert 20 readings 33")).code, Some(0));
    assert_eq!(owners(), (owner, group, 0o660));
    assert_eq!(run(person.command(group).arg(&file).args(["insert", "21", "readings", "34"])).code, Some(0));
    assert_eq!(owners(), (NOBODY, group, 0o660));
}
