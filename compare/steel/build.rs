//! Tells src/lib.rs where the Rust lies: the folder STEEL_SRC, else the one that is laid beside this repository.
//!
//! A crate with a `lexer.diff` beside its Cargo.toml gets a copy of lexer.rs in which the diff's lines are changed; so with each file.
use std::path::{Path, PathBuf};
use std::{env, fs};

/// The Rust's folder, as seen from the repository's root.
const BESIDE: &str = "../shared/docs/src/crates/steel-parser/src";

/// The files that are compiled, each named to lib.rs by STEEL_ and its name.
const FILES: [&str; 4] = ["interner", "lexer", "span", "tokens"];

fn main() {
    println!("cargo:rerun-if-env-changed=STEEL_SRC");
    let manifest = PathBuf::from(env::var_os("CARGO_MANIFEST_DIR").unwrap());
    let folder = match env::var_os("STEEL_SRC") {
        Some(named) => PathBuf::from(named),
        None => manifest.join("../..").join(BESIDE),
    };
    let folder = folder
        .canonicalize()
        .unwrap_or_else(|error| panic!("no Rust lexer at {}: {error}; name its folder in STEEL_SRC", folder.display()));
    for name in FILES {
        let file = compiled(name, &folder, &manifest);
        println!("cargo:rustc-env=STEEL_{}={}", name.to_uppercase(), file.display());
    }
}

/// The file of this name that is compiled: the Rust's own, or a changed copy of it.
fn compiled(name: &str, folder: &Path, manifest: &Path) -> PathBuf {
    let file = folder.join(name).with_extension("rs");
    println!("cargo:rerun-if-changed={}", file.display());
    let diff = manifest.join(name).with_extension("diff");
    if !diff.exists() {
        return file;
    }
    println!("cargo:rerun-if-changed={}", diff.display());
    let copy = PathBuf::from(env::var_os("OUT_DIR").unwrap()).join(name).with_extension("rs");
    fs::write(&copy, patched(&file, &diff)).unwrap();
    copy
}

/// The text of `file` with each hunk of `diff` applied where its old lines stand, which must be one place.
fn patched(file: &Path, diff: &Path) -> String {
    let mut text = fs::read_to_string(file).unwrap();
    let diff = fs::read_to_string(diff).unwrap();
    for hunk in diff.split("\n@@").skip(1) {
        let (old, new) = (side(hunk, '-'), side(hunk, '+'));
        assert_eq!(text.matches(&old).count(), 1, "the old lines of {} must stand in the Rust once", diff);
        text = text.replace(&old, &new);
    }
    text
}

/// The lines of a hunk that `mark` begins or that both sides have, without their marks.
fn side(hunk: &str, mark: char) -> String {
    let lines = hunk.lines().skip(1).filter(|line| line.starts_with([' ', mark]));
    lines.map(|line| format!("{}\n", &line[1..])).collect()
}
