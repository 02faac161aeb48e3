//! Finds the archive that `scripts/build planner_c` writes: in target/staticlib of the repository, or in the folder that
//! PLANNER_LIB_DIR names.

use std::env;
use std::path::PathBuf;
use std::process::exit;

fn main() {
    println!("cargo:rerun-if-env-changed=PLANNER_LIB_DIR");
    let package = PathBuf::from(env::var_os("CARGO_MANIFEST_DIR").expect("cargo sets it"));
    let folder = env::var_os("PLANNER_LIB_DIR").map_or(package.join("../../target/staticlib"), PathBuf::from);
    let archive = folder.join("libplanner_c.a");
    if !archive.is_file() {
        eprintln!("there is no {}", archive.display());
        eprintln!(
            "run `scripts/build planner_c` in the repository's root, or name the archive's folder by PLANNER_LIB_DIR"
        );
        exit(1);
    }
    println!("cargo:rerun-if-changed={}", archive.display());
    println!("cargo:rustc-link-search=native={}", folder.display());
    println!("cargo:rustc-link-lib=static=planner_c");
}
