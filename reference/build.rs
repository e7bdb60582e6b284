//! Links the static library `route` when the feature of that name is on. It is looked for in the folder that
//! ROUTE_LIB_DIR names, and else where `rt lib` in crates/route writes it.

use std::env;
use std::path::PathBuf;

fn main() {
    println!("cargo:rerun-if-env-changed=ROUTE_LIB_DIR");
    if env::var_os("CARGO_FEATURE_ROUTE").is_none() {
        return;
    }
    let written = || PathBuf::from(env::var_os("CARGO_MANIFEST_DIR").unwrap_or_default()).join("../crates/route/out");
    let folder = env::var_os("ROUTE_LIB_DIR").map_or_else(written, PathBuf::from);
    let library = folder.join("libroute.a");
    // A rebuilt library has to be linked anew.
    println!("cargo:rerun-if-changed={}", library.display());
    if !library.is_file() {
        eprintln!("{} is not there.", library.display());
        eprintln!("Run `rt lib` in crates/route, or set ROUTE_LIB_DIR to the library's folder.");
        std::process::exit(1);
    }
    println!("cargo:rustc-link-search=native={}", folder.display());
    println!("cargo:rustc-link-lib=static=route");
}
