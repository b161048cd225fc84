//! Links libstation.a: from the folder that SWATHECOLD_LIB names, or else built here by `tools/archive`.

use std::env;
use std::fs;
use std::path::{Path, PathBuf};
use std::process::{exit, Command};

fn main() {
    println!("cargo:rerun-if-env-changed=SWATHECOLD_LIB");
    let folder = match env::var_os("SWATHECOLD_LIB") {
        Some(given) => PathBuf::from(given),
        None => built(),
    };
    let archive = folder.join("libstation.a");
    if !archive.is_file() {
        stop(&format!("there is no {}", archive.display()));
    }
    println!("cargo:rerun-if-changed={}", archive.display());
    println!("cargo:rustc-link-search=native={}", folder.display());
    println!("cargo:rustc-link-lib=static=station");
    let arch = env::var("CARGO_CFG_TARGET_ARCH").expect("cargo names the processor");
    if arch != "x86_64" {
        println!("cargo:warning=libstation.a is for x86-64 Linux: no program for {arch} can link it");
    }
}

/// Proves and compiles the unit in the repository that this crate stands in, and answers the archive's folder.
fn built() -> PathBuf {
    let here = PathBuf::from(env::var_os("CARGO_MANIFEST_DIR").expect("cargo names the crate's folder"));
    let root = here.join("../..").canonicalize().unwrap_or_else(|_| here.clone());
    if !root.join("crates.txt").is_file() {
        stop("this crate was taken out of its repository: build libstation.a there (`make archive`)");
    }
    println!("cargo:rerun-if-changed={}", root.join("crates.txt").display());
    for part in parts(&root.join("crates")) {
        println!("cargo:rerun-if-changed={}", part.display());
    }
    prove(&root);
    root.join("target/staticlib")
}

/// What the crates are made of; what rt writes beside it changes at every build.
fn parts(crates: &Path) -> Vec<PathBuf> {
    let folders = fs::read_dir(crates).into_iter().flatten().flatten();
    let parts = folders.flat_map(|it| ["src", "specs", "proofs"].map(|part| it.path().join(part)));
    parts.filter(|it| it.is_dir()).collect()
}

fn prove(root: &Path) {
    match Command::new(root.join("tools/archive")).output() {
        Ok(done) if done.status.success() => {}
        Ok(done) => stop(&format!("`tools/archive` failed:\n{}", String::from_utf8_lossy(&done.stderr).trim_end())),
        Err(why) => stop(&format!("`tools/archive` cannot be run ({why})")),
    }
}

fn stop(why: &str) -> ! {
    eprintln!("swathecold: {why}.");
    eprintln!("swathecold: install the Rattle toolchain, or set SWATHECOLD_LIB to a folder that holds libstation.a.");
    exit(1)
}
