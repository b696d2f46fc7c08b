//! Finds libcovremuj.a: in the folder that `COVREMUJ_LIB_DIR` names, or where this repository builds it, or where pkg-config knows it.

use std::env;
use std::path::{Path, PathBuf};
use std::process::Command;

fn has_archive(folder: &Path) -> bool {
    folder.join("libcovremuj.a").is_file()
}

fn of_pkg_config() -> Option<PathBuf> {
    let told = Command::new("pkg-config").args(["--variable=libdir", "covremuj"]).output().ok()?;
    let folder = PathBuf::from(String::from_utf8(told.stdout).ok()?.trim());
    has_archive(&folder).then_some(folder)
}

fn folder() -> Option<PathBuf> {
    if let Some(named) = env::var_os("COVREMUJ_LIB_DIR") {
        return Some(PathBuf::from(named));
    }
    let here = PathBuf::from(env::var_os("CARGO_MANIFEST_DIR")?);
    let built = here.join("../../library/build");
    if has_archive(&built) {
        return Some(built);
    }
    of_pkg_config()
}

fn main() {
    println!("cargo:rerun-if-env-changed=COVREMUJ_LIB_DIR");
    let Some(folder) = folder() else {
        panic!("there is no libcovremuj.a: `make -C library` builds it, or COVREMUJ_LIB_DIR names its folder");
    };
    println!("cargo:rerun-if-changed={}", folder.join("libcovremuj.a").display());
    println!("cargo:rustc-link-search=native={}", folder.display());
    println!("cargo:rustc-link-lib=static=covremuj");
}
