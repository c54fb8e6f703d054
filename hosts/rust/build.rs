//! Links the static library of the C boundary, which `./build tuppenceowl_c` writes; OWL_LIB_DIR names another folder that has it.
use std::{env, path::PathBuf, process::exit};

const LIBRARY: &str = "libtuppenceowl_c.a";

fn main() {
    println!("cargo:rerun-if-env-changed=OWL_LIB_DIR");
    let folder = env::var_os("OWL_LIB_DIR").map_or_else(made, PathBuf::from);
    let library = folder.join(LIBRARY);
    println!("cargo:rerun-if-changed={}", library.display());
    if !library.is_file() {
        eprintln!("{} is not there.", library.display());
        eprintln!("Make it in the repository's root by: ./build tuppenceowl_c");
        eprintln!("or name the folder that has it in OWL_LIB_DIR.");
        exit(1);
    }
    println!("cargo:rustc-link-search=native={}", folder.display());
    println!("cargo:rustc-link-lib=static=tuppenceowl_c");
}

/// Where the repository has it.
fn made() -> PathBuf {
    let here = env::var_os("CARGO_MANIFEST_DIR").expect("cargo names the crate's folder");
    PathBuf::from(here).join("../../target/staticlib")
}
