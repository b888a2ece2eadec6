//! Links the proved functions: libmihadrena.a in the folder that MIHADRENA_ARCHIVE names, else the archive for the machine that is compiled
//! for: beside the crate in a release, or where `.ci/archive` writes it in the repository. Checking and documenting need no archive; where
//! there is none, the linker of a program says so.
use std::env;
use std::path::PathBuf;

const FOLDER: &str = "MIHADRENA_ARCHIVE";

fn main() {
    println!("cargo:rerun-if-env-changed={FOLDER}");
    let folder = env::var_os(FOLDER).map_or_else(made, PathBuf::from);
    let archive = folder.join("libmihadrena.a");
    println!("cargo:rerun-if-changed={}", archive.display());
    println!("cargo:rustc-link-search=native={}", folder.display());
    if archive.exists() {
        println!("cargo:rustc-link-lib=static=mihadrena");
    } else {
        println!("cargo:warning=no {}: run `.ci/archive`, or name its folder in {FOLDER}", archive.display());
        println!("cargo:rustc-link-lib=mihadrena");
    }
}

/// The folder of the archive for the machine that is compiled for; src/lib.rs refuses the machines that have none.
fn made() -> PathBuf {
    let top = PathBuf::from(env::var_os("CARGO_MANIFEST_DIR").expect("cargo names the folder")).join("../..");
    let machine = env::var("CARGO_CFG_TARGET_ARCH").expect("cargo names the machine");
    let released = top.join(format!("lib/{machine}-linux-gnu"));
    if released.exists() {
        return released;
    }
    top.join(if machine == "x86_64" { "target/staticlib".into() } else { format!("target/{machine}-linux-gnu") })
}
