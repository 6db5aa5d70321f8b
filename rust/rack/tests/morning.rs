//! What README.md shows of the tool, typed as it stands there: each command, what it prints, and the picture.

use std::fs;
use std::path::{Path, PathBuf};
use std::process::Command;

const REPOSITORY: &str = concat!(env!("CARGO_MANIFEST_DIR"), "/../..");

/// A command of the page, and the lines that the page says it prints.
struct Shown {
    command: String,
    prints: String,
}

/// The commands of a page: the lines of its code that begin with a dollar sign, and what stands below each.
fn shown(page: &str) -> Vec<Shown> {
    let mut all: Vec<Shown> = Vec::new();
    let mut within = false;
    for line in page.lines() {
        match line.strip_prefix("    ") {
            Some(code) if code.starts_with("$ ") => {
                within = true;
                all.push(Shown { command: code[2..].to_string(), prints: String::new() });
            }
            Some(code) if within => all.last_mut().unwrap().prints += &format!("{code}\n"),
            _ => within = false,
        }
    }
    all
}

/// A folder with what the commands read, and a place for what they make.
fn folder() -> PathBuf {
    let folder = std::env::temp_dir().join(format!("rack-morning-{}", std::process::id()));
    let _ = fs::remove_dir_all(&folder);
    fs::create_dir_all(folder.join("docs")).unwrap();
    fs::create_dir_all(folder.join("examples")).unwrap();
    for name in ["examples/night.txt", "examples/listing.txt"] {
        fs::copy(Path::new(REPOSITORY).join(name), folder.join(name)).unwrap();
    }
    folder
}

/// What a command prints, on either way out.
fn printed(folder: &Path, command: &str) -> String {
    let program = Path::new(env!("CARGO_BIN_EXE_rack")).parent().unwrap();
    let path = format!("{}:{}", program.display(), std::env::var("PATH").unwrap());
    let mut shell = Command::new("sh");
    shell.args(["-c", &format!("{command} 2>&1")]).env("PATH", path).current_dir(folder);
    String::from_utf8(shell.output().unwrap().stdout).unwrap()
}

#[test]
fn the_first_page_tells_what_happens() {
    let page = fs::read_to_string(Path::new(REPOSITORY).join("README.md")).unwrap();
    let (folder, all) = (folder(), shown(&page));
    assert!(all.len() >= 7, "{} commands", all.len());
    for Shown { command, prints } in &all {
        assert_eq!(&printed(&folder, command), prints, "{command}");
    }
    let picture = fs::read_to_string(folder.join("docs/morning.svg")).unwrap();
    let kept = fs::read_to_string(Path::new(REPOSITORY).join("docs/morning.svg")).unwrap();
    assert!(picture == kept, "docs/morning.svg is not what README.md's command draws");
    fs::remove_dir_all(folder).unwrap();
}
