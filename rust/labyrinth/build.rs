//! Finds the archive liblabyrinth.a: in the directory LABYRINTH_DIST names, else in target/dist of the repository.
use std::env;
use std::path::{Path, PathBuf};
use std::process::exit;

fn main() {
    println!("cargo:rerun-if-env-changed=LABYRINTH_DIST");
    let here = env::var_os("CARGO_MANIFEST_DIR").expect("cargo sets CARGO_MANIFEST_DIR");
    let dist = match env::var_os("LABYRINTH_DIST") {
        Some(dist) => PathBuf::from(dist),
        None => Path::new(&here).join("../../target/dist"),
    };
    if !dist.is_absolute() {
        eprintln!("LABYRINTH_DIST must be an absolute path, not {}", dist.display());
        exit(1);
    }
    let archive = dist.join("liblabyrinth.a");
    println!("cargo:rerun-if-changed={}", archive.display());
    if !archive.is_file() {
        eprintln!(
            "{} is not there: run `make lib` in the repository first, or set LABYRINTH_DIST to the directory that holds it",
            archive.display()
        );
        exit(1);
    }
    println!("cargo:rustc-link-search=native={}", dist.display());
    println!("cargo:rustc-link-lib=static=labyrinth");
}
