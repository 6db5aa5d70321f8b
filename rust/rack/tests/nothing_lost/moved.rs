//! Somebody moves files while a change is made, and asks for no lock: what is put there is not lost to the change.

use crate::folder::{names, table, Folder, LISTING};
use rack::store::{create, Held};
use std::fs;
use std::path::PathBuf;
use std::time::Duration;

/// A folder with an empty table that is held, and the table's name.
fn held(test: &str) -> (Folder, PathBuf, Held) {
    let folder = Folder::new(test);
    let file = folder.inner("inner", 0o755).join("t");
    create(&file, table(16, &[]).bytes()).unwrap();
    let held = Held::take(&file, Duration::ZERO).unwrap();
    (folder, file, held)
}

#[test]
fn a_copy_that_was_brought_back_meanwhile_is_not_lost() {
    let (folder, file, held) = held("brought-back");
    let kept = table(16, &LISTING);
    fs::write(folder.at("kept"), kept.bytes()).unwrap();
    fs::rename(folder.at("kept"), &file).unwrap();
    let told = held.replace(table(16, &[(1, 5)]).bytes()).unwrap_err();
    assert!(told.to_string().contains("was replaced or taken away meanwhile") && !told.is_made(), "{told}");
    assert_eq!(fs::read(&file).unwrap(), kept.bytes());
    assert_eq!(names(file.parent().unwrap()), ["t"], "nothing is left beside it");
}

#[test]
fn a_table_that_was_taken_away_meanwhile_is_not_made_anew() {
    let (folder, file, held) = held("taken-away");
    fs::rename(&file, folder.at("away")).unwrap();
    assert!(held.replace(table(16, &[(1, 5)]).bytes()).is_err());
    assert_eq!(names(file.parent().unwrap()), [""; 0]);
    assert_eq!(fs::read(folder.at("away")).unwrap(), table(16, &[]).bytes());
}
