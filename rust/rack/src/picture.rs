//! A picture's way into its file. A table must not be lost to a picture of it, so no file is replaced that is none.

use crate::failure::Failure;
use crate::name::shown;
use std::fs::{self, File};
use std::io::{self, Read};
use std::path::Path;

/// How every picture of ours begins. No table begins so: byte 14 of a record is at most 8.
const BEGIN: &[u8] = b"<svg xmlns=\"http://www.w3.org/2000/svg\" ";

/// Writes the picture, over an older one if there is one; `-` is standard output.
pub fn write(path: &Path, svg: &str) -> Result<(), Failure> {
    if is_standard_output(Some(path)) {
        return crate::output::print(svg);
    }
    if !may_be_replaced(path).map_err(|error| Failure::at("looking at", path, &error))? {
        return Err(Failure::new(format!("{} is there and no picture; it was not touched", shown(path))));
    }
    fs::write(path, svg).map_err(|error| Failure::at("writing the picture", path, &error))
}

/// Whether the picture goes to standard output.
pub fn is_standard_output(path: Option<&Path>) -> bool {
    path == Some(Path::new("-"))
}

/// Whether there is nothing of that name, or a picture, or what was begun of one.
fn may_be_replaced(path: &Path) -> io::Result<bool> {
    let mut start = Vec::new();
    match fs::metadata(path) {
        Err(error) if error.kind() == io::ErrorKind::NotFound => return Ok(true),
        found => {
            if !found?.is_file() {
                return Ok(false);
            }
        }
    }
    File::open(path)?.take(BEGIN.len() as u64).read_to_end(&mut start)?;
    Ok(BEGIN.starts_with(&start))
}
