//! Links the static library under test.
//!
//! It is looked for in `../target/staticlib`; the variable
//! `SECONDCOOP_LIB_DIR` names another directory.

use std::env;
use std::path::PathBuf;

fn main() {
    let directory = match env::var_os("SECONDCOOP_LIB_DIR") {
        Some(named) => PathBuf::from(named),
        None => {
            let package = env::var_os("CARGO_MANIFEST_DIR").expect("cargo names the package");
            PathBuf::from(package).join("../target/staticlib")
        }
    };
    println!("cargo:rerun-if-env-changed=SECONDCOOP_LIB_DIR");
    println!("cargo:rerun-if-changed=build.rs");
    println!("cargo:rustc-link-search=native={}", directory.display());
    // Numbers; plans; planner calls and the bench text. The names of the
    // archives are for tests that link a C program.
    for (library, variable) in [
        ("ffi_numbers", "SECONDCOOP_NUMBERS_ARCHIVE"),
        ("ffi_plans", "SECONDCOOP_PLANS_ARCHIVE"),
        ("ffi_planner", "SECONDCOOP_PLANNER_ARCHIVE"),
    ] {
        let archive = directory.join(format!("lib{library}.a"));
        if !archive.exists() {
            println!("cargo:warning={} is missing", archive.display());
        }
        println!("cargo:rerun-if-changed={}", archive.display());
        println!("cargo:rustc-link-lib=static={library}");
        println!("cargo:rustc-env={variable}={}", archive.display());
    }
}
