//! Finds `libgaffmedlar.a`: in the folder that GAFFMEDLAR_LIB_DIR names, else in the repository's target/staticlib, where
//! `tools/build library` writes it. An archive that can't say its version is refused here, one of another version by the first call.
use std::env;
use std::fs;
use std::path::{Path, PathBuf};

/// The function that says the archive's version, as its index of symbols has it.
const EXPORT: &[u8] = b"gaffmedlar_version\0";

fn folder() -> PathBuf {
    let here =
        PathBuf::from(env::var_os("CARGO_MANIFEST_DIR").expect("cargo sets CARGO_MANIFEST_DIR"));
    let Some(given) = env::var_os("GAFFMEDLAR_LIB_DIR").map(PathBuf::from) else {
        return here.join("../../target/staticlib");
    };
    if given.is_relative() {
        // cargo starts this program in the crate's folder, and doesn't say where it was called itself
        let called = env::var_os("PWD").map(PathBuf::from).unwrap_or_default();
        panic!(
            "GAFFMEDLAR_LIB_DIR is {}, which depends on the folder it is read in: give the whole path, as {}",
            given.display(),
            called.join(&given).display()
        );
    }
    given
}

/// Whether the archive has the export.
fn says_version(archive: &Path) -> bool {
    let bytes = fs::read(archive).unwrap_or_else(|error| panic!("{}: {error}", archive.display()));
    bytes.windows(EXPORT.len()).any(|part| part == EXPORT)
}

fn main() {
    println!("cargo:rerun-if-env-changed=GAFFMEDLAR_LIB_DIR");
    let folder = folder();
    let archive = folder.join("libgaffmedlar.a");
    println!("cargo:rerun-if-changed={}", archive.display());
    if !archive.exists() {
        panic!(
            "no {}: run `tools/build library` in the repository's root, or set GAFFMEDLAR_LIB_DIR to the folder that has libgaffmedlar.a",
            archive.display()
        );
    }
    if !says_version(&archive) {
        panic!(
            "{} is older than 0.3.0: it doesn't say its version, and this crate is version {}. Run `tools/build library` in the repository's root",
            archive.display(),
            env!("CARGO_PKG_VERSION")
        );
    }
    println!("cargo:rustc-env=GAFFMEDLAR_ARCHIVE={}", archive.display());
    println!("cargo:rustc-link-search=native={}", folder.display());
    println!("cargo:rustc-link-lib=static=gaffmedlar");
}
