//! Links the proved archive, libwatch_c.a. It is looked for in the folder that `WATCH_LIB_DIR`
//! names, where that is set; else in the repository's `target/staticlib/`, where `tools/build-c`
//! makes it.
//!
//! `cargo check` and `cargo doc` need no archive, and work for every target. So where there is
//! none, or the target is none that it is made for, that is a warning and nothing is linked: only a
//! program then fails, at its link, by the names of the functions that it lacks.

use std::env;
use std::path::PathBuf;

const ARCHIVE: &str = "libwatch_c.a";

/// Whether the archive is made for the target: x86-64 with pointers of 64 bits, the System V
/// calling convention and ELF.
fn made_for_target() -> bool {
    let is = |name: &str, value: &str| env::var(name).map_or(false, |found| found == value);
    let elsewhere = is("CARGO_CFG_TARGET_OS", "windows")
        || is("CARGO_CFG_TARGET_OS", "cygwin")
        || is("CARGO_CFG_TARGET_OS", "uefi")
        || is("CARGO_CFG_TARGET_VENDOR", "apple");
    is("CARGO_CFG_TARGET_ARCH", "x86_64") && is("CARGO_CFG_TARGET_POINTER_WIDTH", "64") && !elsewhere
}

fn main() {
    println!("cargo:rerun-if-changed=build.rs");
    println!("cargo:rerun-if-env-changed=WATCH_LIB_DIR");
    if !made_for_target() {
        let target = env::var("TARGET").unwrap_or_default();
        println!(
            "cargo:warning={ARCHIVE} is made for x86-64 and the System V calling convention, and the target is {target}: \
             check and doc work, a program does not link"
        );
        return;
    }
    let here = PathBuf::from(env::var("CARGO_MANIFEST_DIR").expect("cargo sets CARGO_MANIFEST_DIR"));
    let folder = env::var_os("WATCH_LIB_DIR").map_or_else(|| here.join("../../target/staticlib"), PathBuf::from);
    println!("cargo:rerun-if-changed={}", folder.join(ARCHIVE).display());
    if folder.join(ARCHIVE).is_file() {
        println!("cargo:rustc-link-search=native={}", folder.display());
        println!("cargo:rustc-link-lib=static=watch_c");
    } else {
        println!(
            "cargo:warning=there is no {ARCHIVE}: run tools/build-c in the repository, or set WATCH_LIB_DIR to the folder that \
             holds it; until then check and doc work, and a program does not link"
        );
    }
}
