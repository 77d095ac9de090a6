//! Links the proved library: the archive that ARCHIVE names, or the one that tools/build-c makes.
use std::path::{Path, PathBuf};

fn main() {
    let here = std::env::var("CARGO_MANIFEST_DIR").expect("cargo sets CARGO_MANIFEST_DIR");
    let archive = match std::env::var("ARCHIVE") {
        Ok(path) if !path.is_empty() => PathBuf::from(path),
        _ => Path::new(&here).join("../target/staticlib/libwatch_c.a"),
    };
    let archive = archive.canonicalize().expect("there is no archive: make it with tools/build-c");
    let archive = archive.display();
    println!("cargo:rustc-env=ARCHIVE={archive}");
    println!("cargo:rerun-if-env-changed=ARCHIVE");
    println!("cargo:rerun-if-changed={archive}");
    println!("cargo:rustc-link-arg={archive}");
}
