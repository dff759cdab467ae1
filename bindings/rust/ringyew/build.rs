//! Finds libsrm: in the folder that RINGYEW_LIB names, else by pkg-config.

use std::path::{Path, PathBuf};
use std::process::Command;

fn main() {
    println!("cargo:rerun-if-env-changed=RINGYEW_LIB");
    println!("cargo:rerun-if-env-changed=PKG_CONFIG_PATH");
    let Some(folder) = named().or_else(installed) else {
        eprintln!(
            "ringyew: libsrm isn't found: run `make -C capi install PREFIX=DIR` with DIR/lib/pkgconfig in PKG_CONFIG_PATH, or set RINGYEW_LIB to the folder of libsrm.a"
        );
        std::process::exit(1);
    };
    println!("cargo:rustc-link-search=native={}", folder.display());
    println!("cargo:rustc-link-lib=static=srm");
    println!("cargo:rerun-if-changed={}", folder.join("libsrm.a").display());
}

fn named() -> Option<PathBuf> {
    has_library(Path::new(&std::env::var_os("RINGYEW_LIB")?))
}

fn installed() -> Option<PathBuf> {
    let told = Command::new("pkg-config").args(["--variable=libdir", "srm"]).output().ok()?;
    let folder = String::from_utf8(told.stdout).ok()?;
    has_library(Path::new(folder.trim()))
}

/// The whole path of a folder that holds the library.
fn has_library(folder: &Path) -> Option<PathBuf> {
    let folder = folder.canonicalize().ok()?;
    folder.join("libsrm.a").exists().then_some(folder)
}
