//! Links the proved static library: that of the folder which `RNIC_DIR` names, as `./build FOLDER` writes it, or else the one that
//! `./build --library` leaves in this repository.

use std::path::{Path, PathBuf};
use std::process::ExitCode;

/// The variable that names a folder which `./build` wrote.
const VARIABLE: &str = "RNIC_DIR";
/// Where the library stands in the repository, from this folder.
const FOLDER: &str = "../target/staticlib";

/// Gives the folder that the library is in, its name, and what makes it.
fn library() -> (PathBuf, &'static str, String) {
    match std::env::var_os(VARIABLE) {
        Some(named) => {
            let remedy = format!("{VARIABLE} must name a folder that `./build FOLDER` wrote");
            (Path::new(&named).join("lib"), "rnic", remedy)
        }
        None => {
            let folder = Path::new(env!("CARGO_MANIFEST_DIR")).join(FOLDER);
            let remedy = String::from("run `./build --library` in the repository");
            (folder, "rnic_c", remedy)
        }
    }
}

/// Tells cargo where the library is, or fails with what makes it.
fn main() -> ExitCode {
    let (folder, name, remedy) = library();
    let archive = folder.join(format!("lib{name}.a"));
    println!("cargo:rerun-if-env-changed={VARIABLE}");
    println!("cargo:rerun-if-changed={}", archive.display());
    if !archive.exists() {
        eprintln!("{} is missing: {remedy}", archive.display());
        return ExitCode::FAILURE;
    }
    println!("cargo:rustc-link-search=native={}", folder.display());
    println!("cargo:rustc-link-lib=static={name}");
    ExitCode::SUCCESS
}
