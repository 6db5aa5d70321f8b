//! A file's name as it is shown, and as it is typed into a shell.

use std::path::Path;

/// As it is shown: what would move a terminal's cursor or ring its bell is spelled out.
pub fn shown(path: &Path) -> String {
    let name = path.display().to_string();
    match name.chars().any(char::is_control) {
        true => format!("{name:?}"),
        false => name,
    }
}

/// As it is typed; one that can't be is shown.
pub fn typed(path: &Path) -> String {
    let name = path.display().to_string();
    let plain = |letter: char| letter.is_ascii_alphanumeric() || "/._-+,:@%".contains(letter);
    match name.chars().all(plain) {
        true => name,
        false if name.chars().any(|letter| letter.is_control() && !letter.is_whitespace()) => format!("{name:?}"),
        false => format!("'{}'", name.replace('\'', "'\\''")),
    }
}
