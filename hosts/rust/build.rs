//! Links libsealwax.a, and makes it first where it is missing.

use std::env;
use std::path::{Path, PathBuf};
use std::process::Command;

const ARCHIVE: &str = "libsealwax.a";

fn main() {
    println!("cargo:rerun-if-changed=build.rs");
    println!("cargo:rerun-if-env-changed=SEALWAX_LIBRARY");
    let folder = match env::var_os("SEALWAX_LIBRARY") {
        Some(folder) => named(PathBuf::from(folder)),
        None => made(),
    };
    // A library that is made anew is linked anew.
    println!("cargo:rerun-if-changed={}", folder.join(ARCHIVE).display());
    println!("cargo:rustc-link-search=native={}", folder.display());
    println!("cargo:rustc-link-lib=static=sealwax");
}

/// The folder that SEALWAX_LIBRARY names. It is not made: whoever names it has filled it.
fn named(folder: PathBuf) -> PathBuf {
    assert!(
        folder.join(ARCHIVE).is_file(),
        "SEALWAX_LIBRARY names {}, where there is no {ARCHIVE}",
        folder.display()
    );
    folder
}

/// The repository's `build`, filled by its script `library` where it is empty.
fn made() -> PathBuf {
    let here = env::var_os("CARGO_MANIFEST_DIR").expect("cargo names the crate's folder");
    let top = Path::new(&here).join("../..");
    let folder = top.join("build");
    if !folder.join(ARCHIVE).is_file() {
        let library = top.join("library");
        println!("making {ARCHIVE} with {}", library.display());
        let status = Command::new(&library).status();
        assert!(
            matches!(status, Ok(status) if status.success()),
            "{} did not make {ARCHIVE}: {status:?}",
            library.display()
        );
    }
    folder
}
