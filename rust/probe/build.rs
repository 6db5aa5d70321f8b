//! Links the proved library's `libprobe.a` from the directory that PLOTVUGA_LIB_DIR names. Documentation and lints need
//! no library, so a missing one is told only where something is linked.

use std::path::PathBuf;

fn main() {
    println!("cargo:rerun-if-env-changed=PLOTVUGA_LIB_DIR");
    if std::env::var_os("CARGO_FEATURE_STUB").is_some() {
        return;
    }
    let named = std::env::var_os("PLOTVUGA_LIB_DIR").map(PathBuf::from);
    // Cargo runs this in the package's directory and the linker elsewhere, so a relative path would mean two things.
    if let Some(relative) = named.as_ref().filter(|directory| !directory.is_absolute()) {
        eprintln!("error: PLOTVUGA_LIB_DIR is {}: give the whole path from /", relative.display());
        std::process::exit(1);
    }
    let library = named.as_ref().map(|directory| directory.join("libprobe.a"));
    if let Some(library) = &library {
        println!("cargo:rerun-if-changed={}", library.display());
    }
    let there = library.is_some_and(|library| library.is_file());
    if let Some(directory) = named {
        println!("cargo:rustc-link-search=native={}", directory.display());
    }
    println!("cargo:rustc-link-lib=static={}", if there { "probe" } else { MISSING });
}

/// Linked in place of a library that is not there. The compiler looks for it only when it links, does not find it, and
/// says so by this name: what to do stands in it. A colon would end the name.
const MISSING: &str = "probe (run 'bash tools/library.sh probe' and set PLOTVUGA_LIB_DIR to the whole path of \
                       target/staticlib, or build without it, for --self alone, by --features stub)";
