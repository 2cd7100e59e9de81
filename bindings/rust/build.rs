//! Links the C library of the folder NPSS_PREFIX, where ./build-c or a package installed it. Without NPSS_PREFIX that is the
//! library of this tree, or where there is none the one that pkg-config tells of.

use std::env;
use std::path::PathBuf;
use std::process::{exit, Command};

/// The folders that may have the library, the first that is meant first.
fn folders() -> Vec<PathBuf> {
    if let Some(prefix) = env::var_os("NPSS_PREFIX") {
        let library = PathBuf::from(prefix).join("lib");
        return vec![library.join("x86_64-linux-gnu"), library];
    }
    let tree = PathBuf::from(env!("CARGO_MANIFEST_DIR")).join("../../out/c/lib");
    let output = Command::new("pkg-config")
        .args(["--variable=libdir", "npss"])
        .output();
    let installed = output
        .ok()
        .and_then(|output| String::from_utf8(output.stdout).ok());
    let installed = installed.filter(|folder| !folder.trim().is_empty());
    std::iter::once(tree)
        .chain(installed.map(|folder| PathBuf::from(folder.trim())))
        .collect()
}

fn main() {
    println!("cargo:rerun-if-env-changed=NPSS_PREFIX");
    println!("cargo:rerun-if-env-changed=PKG_CONFIG_PATH");
    let folders = folders();
    for folder in &folders {
        let archive = folder.join("libnpss.a");
        if archive.exists() {
            println!("cargo:rerun-if-changed={}", archive.display());
            println!("cargo:rustc-link-search=native={}", folder.display());
            println!("cargo:rustc-link-lib=static=npss");
            return;
        }
    }
    eprintln!("npss: libnpss.a is in none of {folders:?}. Install libnpss-dev, or build it by ./build-c; where it went elsewhere, by");
    eprintln!("npss: ./build-c PREFIX or from the tarball, set NPSS_PREFIX to that folder, which has lib/libnpss.a.");
    exit(1);
}
