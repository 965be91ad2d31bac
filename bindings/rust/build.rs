//! Links liblouvretansy.a: the one that `LOUVRETANSY_ARCHIVE` names; or target/staticlib of the repository, where
//! `make lib` writes it; or the one that is installed, which pkg-config knows. Where there is none
//! `cargo check` and `cargo doc` do without it, and what must be linked fails.

use std::env;
use std::path::{Path, PathBuf};
use std::process::Command;

const VARIABLE: &str = "LOUVRETANSY_ARCHIVE";
const ARCHIVE: &str = "liblouvretansy.a";

/// The archive that the variable names. One that is named and is not there is an error: no other stands in for it.
fn named() -> Option<PathBuf> {
    let path = PathBuf::from(env::var_os(VARIABLE)?);
    let name = path.file_name().is_some_and(|name| name == ARCHIVE);
    assert!(name && path.is_file(), "{VARIABLE} does not name a file {ARCHIVE}: {}", path.display());
    Some(path)
}

/// The archive of the repository.
fn built() -> Option<PathBuf> {
    let path = Path::new(env!("CARGO_MANIFEST_DIR")).join("../../target/staticlib").join(ARCHIVE);
    println!("cargo:rerun-if-changed={}", path.display());
    path.is_file().then_some(path)
}

/// The archive that is installed.
fn installed() -> Option<PathBuf> {
    let asked =
        Command::new("pkg-config").args(["--libs-only-L", "--keep-system-libs", "louvretansy"]).output().ok()?;
    let folders = String::from_utf8(asked.stdout).ok()?;
    folders
        .split_whitespace()
        .filter_map(|word| word.strip_prefix("-L"))
        .map(|folder| Path::new(folder).join(ARCHIVE))
        .find(|path| path.is_file())
}

fn main() {
    println!("cargo:rerun-if-changed=build.rs");
    for variable in [VARIABLE, "PKG_CONFIG_PATH", "PKG_CONFIG_LIBDIR", "PKG_CONFIG_SYSROOT_DIR"] {
        println!("cargo:rerun-if-env-changed={variable}");
    }
    println!("cargo:rustc-link-lib=static=louvretansy");
    match named().or_else(built).or_else(installed) {
        Some(archive) => {
            let archive = env::current_dir().expect("a folder to work in").join(archive);
            println!("cargo:rerun-if-changed={}", archive.display());
            println!("cargo:rustc-link-search=native={}", archive.parent().expect("a file has a folder").display());
        }
        None => println!(
            "cargo:warning=there is no {ARCHIVE} to link with: `make lib` in the repository writes it, \
             `make install` installs it, {VARIABLE} names it"
        ),
    }
}
