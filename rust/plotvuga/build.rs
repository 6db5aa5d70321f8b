//! Links the proved library, `libplotvuga.a`: from the directory that PLOTVUGA_LIB_DIR names, or from the repository's
//! own `target/staticlib`, where `tools/library.sh plotvuga` puts it. Documentation and lints need no library, so a
//! missing one is told only where something is linked.

use std::path::PathBuf;

fn main() {
    println!("cargo:rerun-if-env-changed=PLOTVUGA_LIB_DIR");
    let directory = match std::env::var_os("PLOTVUGA_LIB_DIR") {
        Some(named) => PathBuf::from(named),
        None => PathBuf::from(env!("CARGO_MANIFEST_DIR")).join("../../target/staticlib"),
    };
    // Cargo runs this in the package's directory and the linker elsewhere, so a relative path would mean two things.
    if !directory.is_absolute() {
        eprintln!("error: PLOTVUGA_LIB_DIR is {}: give the whole path from /", directory.display());
        std::process::exit(1);
    }
    let library = directory.join("libplotvuga.a");
    println!("cargo:rerun-if-changed={}", library.display());
    println!("cargo:rustc-link-search=native={}", directory.display());
    println!("cargo:rustc-link-lib=static={}", if library.is_file() { "plotvuga" } else { MISSING });
}

/// Linked in place of a library that is not there. The compiler looks for it only when it links, does not find it, and
/// says so by this name: what to do stands in it. A colon would end the name.
const MISSING: &str = "plotvuga (run 'bash tools/library.sh plotvuga' in the repository, or set PLOTVUGA_LIB_DIR to \
                       the folder that holds libplotvuga.a)";
