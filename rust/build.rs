//! Finds the proved static library and links it.
//!
//! The folder is `MOPEKIHUA_LIB_DIR` where that is set (a relative one is read
//! from this package's folder), else the one that `make lib` writes to.

use std::env;
use std::path::{Path, PathBuf};

const ARCHIVE: &str = "libmopekihua.a";

fn main() {
    println!("cargo::rerun-if-env-changed=MOPEKIHUA_LIB_DIR");
    let folder = library_folder();
    let archive = folder.join(ARCHIVE);
    println!("cargo::rerun-if-changed={}", archive.display());
    if archive.is_file() {
        println!("cargo::rustc-link-search=native={}", folder.display());
        println!("cargo::rustc-link-lib=static=mopekihua");
    } else {
        println!(
            "cargo::error=the proved library is not built: there is no file {}",
            archive.display()
        );
        println!(
            "cargo::error=run `make lib` in the repository's root, or set MOPEKIHUA_LIB_DIR \
             to the folder that has {ARCHIVE}"
        );
    }
}

/// The folder as an absolute path, so that the message says where it is.
fn library_folder() -> PathBuf {
    let manifest = PathBuf::from(env::var_os("CARGO_MANIFEST_DIR").unwrap_or_default());
    match env::var_os("MOPEKIHUA_LIB_DIR") {
        Some(folder) if !folder.is_empty() => manifest.join(folder),
        _ => repository(&manifest).join("target").join("staticlib"),
    }
}

/// The folder that holds this package's folder.
fn repository(manifest: &Path) -> &Path {
    manifest.parent().unwrap_or(manifest)
}
