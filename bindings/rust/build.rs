//! Finds the library. Its folder is the one that BELFRYWOOL_LIB names, or the folder lib that the crate is installed next to. In
//! the repository it is target/library or target/staticlib, the first that exists. If the folder has libbelfrywool.a, that is
//! linked; else its parts are.

use std::env::var;
use std::path::Path;

/// Without BELFRYWOOL_LIB: an installed crate is in PREFIX/share/belfrywool/rust, that of the repository in bindings/rust.
fn found(here: &str) -> String {
    let [installed, library, parts] = ["../../../lib", "../../target/library", "../../target/staticlib"].map(|place| format!("{here}/{place}"));
    let has = |folder: &String| Path::new(folder).join("libbelfrywool.a").exists();
    [installed, library].into_iter().find(has).unwrap_or(parts)
}

fn main() {
    let here = var("CARGO_MANIFEST_DIR").expect("cargo sets it");
    let folder = var("BELFRYWOOL_LIB").unwrap_or_else(|_| found(&here));
    println!("cargo:rerun-if-env-changed=BELFRYWOOL_LIB");
    println!("cargo:rerun-if-changed={folder}");
    println!("cargo:rustc-link-search=native={folder}");
    if Path::new(&folder).join("libbelfrywool.a").exists() {
        println!("cargo:rerun-if-changed={folder}/libbelfrywool.a");
        println!("cargo:rustc-link-lib=static=belfrywool");
        return;
    }
    let asked = [
        ("belfry_earth", "CARGO_FEATURE_BELFRY_EARTH"),
        ("belfry_repair", "CARGO_FEATURE_BELFRY_REPAIR"),
    ];
    let asked = asked.iter().filter(|(_, feature)| var(feature).is_ok()).map(|(name, _)| *name);
    for name in ["belfry_centre", "belfry_almanac", "belfry_book", "belfry_pane"].into_iter().chain(asked) {
        println!("cargo:rerun-if-changed={folder}/lib{name}.a");
        println!("cargo:rustc-link-lib=static={name}");
    }
}
