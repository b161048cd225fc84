//! Says whether the source's text was given, and links the unit where it is asked for.

use std::env;
use std::path::PathBuf;

fn main() {
    println!("cargo:rustc-check-cfg=cfg(source)");
    if env::var_os("DEP_SWRASTER_GIVEN").is_some() {
        println!("cargo:rustc-cfg=source");
    }
    if env::var_os("CARGO_FEATURE_UNIT").is_some() {
        link_the_unit();
    }
}

/// Links libstation.a from the folder SWATHECOLD_LIB, or from target/staticlib of the repository.
fn link_the_unit() {
    println!("cargo:rerun-if-env-changed=SWATHECOLD_LIB");
    let here = PathBuf::from(env::var_os("CARGO_MANIFEST_DIR").expect("cargo sets CARGO_MANIFEST_DIR"));
    let folder = env::var_os("SWATHECOLD_LIB").map_or(here.join("../../target/staticlib"), PathBuf::from);
    let archive = folder.join("libstation.a");
    assert!(
        archive.is_file(),
        "{} is not there: run `make archive`, or set SWATHECOLD_LIB to the folder that has it",
        archive.display()
    );
    println!("cargo:rerun-if-changed={}", archive.display());
    println!("cargo:rustc-link-search=native={}", folder.display());
    println!("cargo:rustc-link-lib=static=station");
}
