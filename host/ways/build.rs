//! Links the proved library. `WAYS_ARCHIVE` names another archive than the repository's own, which is made here where it is missing or older than `crates/`.

use std::env;
use std::path::{Path, PathBuf};
use std::process::Command;

fn main() {
    let repository = Path::new(env!("CARGO_MANIFEST_DIR")).join("../..").canonicalize().expect("the repository's folder");
    println!("cargo:rerun-if-env-changed=WAYS_ARCHIVE");
    let archive = match env::var_os("WAYS_ARCHIVE") {
        Some(path) => PathBuf::from(path),
        None => own_archive(&repository),
    };
    assert!(archive.is_file(), "no archive at {}", archive.display());
    println!("cargo:rerun-if-changed={}", archive.display());
    link(&archive);
}

/// The archive that `rt` proves and writes. Cargo shows what `rt` prints only where it fails; `host/run-tests` makes the archive in sight.
fn own_archive(repository: &Path) -> PathBuf {
    println!("cargo:rerun-if-changed={}", repository.join("crates.txt").display());
    for entry in std::fs::read_dir(repository.join("crates")).expect("the folder of the crates") {
        let folder = entry.expect("a crate").path();
        // what rt leaves in out/ counts for nothing
        for part in ["src", "specs", "proofs"].map(|part| folder.join(part)) {
            if part.is_dir() {
                println!("cargo:rerun-if-changed={}", part.display());
            }
        }
    }
    let archive = "target/staticlib/libplanner.a";
    let made = Command::new(repository.join("host/fresh")).args([archive, "host/build", "planner"]).status();
    assert!(made.expect("host/fresh can be run").success(), "the library is missing or older than crates/, and `host/build planner` did not make it");
    repository.join(archive)
}

/// The archive is copied under a name of its own, so that no other library of its name is found in its place.
fn link(archive: &Path) {
    let folder = PathBuf::from(env::var_os("OUT_DIR").expect("cargo says where"));
    let copy = folder.join("libways_planner.a");
    std::fs::copy(archive, &copy).expect("the archive can be copied");
    println!("cargo:rustc-link-search=native={}", folder.display());
    println!("cargo:rustc-link-lib=static=ways_planner");
    println!("cargo:rustc-env=WAYS_LINKED_ARCHIVE={}", copy.display());
}
