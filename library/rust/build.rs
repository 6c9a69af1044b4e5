//! Finds the library: in the folder that SAS_LIB_DIR names, else in ../out, where `make lib` puts it, else by pkg-config. Links the
//! static library if there is one. A relative SAS_LIB_DIR is looked for in the folder in which cargo was called, then in that of the crate.

use std::os::unix::process::parent_id;
use std::path::{Path, PathBuf};
use std::process::{exit, Command};

fn has_library(folder: &Path) -> bool {
    folder.join("libsas.a").exists() || folder.join("libsas.so").exists()
}

/// Returns the folder that pkg-config names.
fn installed() -> Option<PathBuf> {
    let ran = Command::new("pkg-config").args(["--variable=libdir", "sas"]).output().ok()?;
    ran.status.success().then(|| PathBuf::from(String::from_utf8_lossy(&ran.stdout).trim_end()))
}

/// Returns the folders in which a relative path is looked for. Cargo, which starts this program in that of the crate, stays where it was
/// called.
fn starts() -> Vec<PathBuf> {
    let called = std::fs::read_link(format!("/proc/{}/cwd", parent_id())).ok();
    called.into_iter().chain([PathBuf::from(env!("CARGO_MANIFEST_DIR"))]).collect()
}

/// Returns the folders that may have the library.
fn folders() -> Vec<PathBuf> {
    match std::env::var_os("SAS_LIB_DIR") {
        Some(named) => starts().iter().map(|start| start.join(&named)).collect(),
        None => [Path::new(env!("CARGO_MANIFEST_DIR")).join("../out")].into_iter().chain(installed()).collect(),
    }
}

fn main() {
    println!("cargo:rerun-if-env-changed=SAS_LIB_DIR");
    println!("cargo:rerun-if-env-changed=PKG_CONFIG_PATH");
    let mut folders = folders();
    folders.dedup();
    let Some(folder) = folders.iter().find(|it| has_library(it)) else {
        let tried: Vec<_> = folders.iter().map(|it| it.display().to_string()).collect();
        eprintln!("libsas isn't found in {}", tried.join(" or "));
        eprintln!("name its folder in SAS_LIB_DIR, build it by `make lib`, or install it for pkg-config");
        exit(1);
    };
    let folder = folder.canonicalize().expect("the folder is there");
    let kind = if folder.join("libsas.a").exists() { "static" } else { "dylib" };
    if kind == "dylib" {
        if !folder.join("libsas.so.1").exists() {
            eprintln!("{} has libsas.so, but not libsas.so.1, which a program loads", folder.display());
            exit(1);
        }
        println!("cargo:warning=there is no libsas.a in {}, so programs are linked with libsas.so", folder.display());
        println!("cargo:warning=a program finds libsas.so.1 by LD_LIBRARY_PATH, by an rpath, or in the system's folders");
    }
    println!("cargo:rerun-if-changed={}", folder.display());
    println!("cargo:rustc-link-search=native={}", folder.display());
    println!("cargo:rustc-link-lib={kind}=sas");
}
