//! Links libexport.a, the proved library: from the folder that MBENARUUL_LIB names; or else from lib/,
//! where it is handed on beside this crate; or else from where `rust/build-library` puts it.

use std::path::{Path, PathBuf};
use std::time::SystemTime;
use std::{env, fs, io};

fn main() {
    println!("cargo:rerun-if-env-changed=MBENARUUL_LIB");
    for_this_target();
    let folder = folder();
    println!("cargo:rustc-link-search=native={}", folder.display());
    println!("cargo:rustc-link-lib=static=export");
}

/// The library is code for one processor and one system. It calls nothing of a C library, so that
/// any may be linked beside it.
fn for_this_target() {
    let cfg = |what: &str| env::var(format!("CARGO_CFG_TARGET_{what}")).unwrap_or_default();
    let target = [cfg("ARCH"), cfg("OS"), cfg("POINTER_WIDTH")];
    if target != ["x86_64", "linux", "64"] {
        let [processor, system, width] = target;
        stop(&format!(
            "libexport.a is for x86_64 linux with pointers of 64 bits, and this build is for \
             {processor} {system} with pointers of {width}"
        ));
    }
}

fn folder() -> PathBuf {
    let root = Path::new(env!("CARGO_MANIFEST_DIR")).join("../..");
    match env::var_os("MBENARUUL_LIB") {
        Some(named) => holding(from_root_on(PathBuf::from(named))),
        None if root.join("lib/libexport.a").is_file() => holding(root.join("lib")),
        None => {
            let made = holding(root.join("target/staticlib"));
            not_older(&made, &root.join("crates"));
            made
        }
    }
}

/// Cargo runs this in the crate's own folder, and not where the name was given.
fn from_root_on(named: PathBuf) -> PathBuf {
    if named.is_relative() {
        stop(&format!(
            "MBENARUUL_LIB is {named:?}: it has to name a folder from / on"
        ));
    }
    named
}

/// The folder, which has to hold the library.
fn holding(folder: PathBuf) -> PathBuf {
    let archive = folder.join("libexport.a");
    println!("cargo:rerun-if-changed={}", archive.display());
    if !archive.is_file() {
        stop(&format!(
            "{} is not there: `rust/build-library`, run in the repository's root, makes it; \
             or let MBENARUUL_LIB name the folder that holds it",
            archive.display()
        ));
    }
    folder
}

/// The library is not linked where a source that it was proved and built from is newer.
fn not_older(made: &Path, crates: &Path) {
    println!("cargo:rerun-if-changed={}", crates.display());
    let archive = made.join("libexport.a");
    let newer = modified(&archive).and_then(|time| newer_file(crates, time));
    match newer {
        Ok(None) => {}
        Ok(Some(source)) => stop(&format!(
            "{} is older than {}: `rust/build-library`, run in the repository's root, makes it \
             again",
            archive.display(),
            source.display()
        )),
        Err(e) => stop(&format!("{}: {e}", crates.display())),
    }
}

fn modified(path: &Path) -> io::Result<SystemTime> {
    fs::metadata(path)?.modified()
}

/// A file of src/, specs/ or proofs/ of a crate that was changed after this time.
fn newer_file(crates: &Path, time: SystemTime) -> io::Result<Option<PathBuf>> {
    let mut folders = Vec::new();
    for of_crate in fs::read_dir(crates)? {
        let of_crate = of_crate?.path();
        folders.extend(["src", "specs", "proofs"].map(|part| of_crate.join(part)));
    }
    while let Some(folder) = folders.pop() {
        if !folder.is_dir() {
            continue;
        }
        for entry in fs::read_dir(&folder)? {
            let path = entry?.path();
            if path.is_dir() {
                folders.push(path);
            } else if modified(&path)? > time {
                return Ok(Some(path));
            }
        }
    }
    Ok(None)
}

fn stop(why: &str) -> ! {
    eprintln!("mbenaruul: {why}");
    std::process::exit(1)
}
