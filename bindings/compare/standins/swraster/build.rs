//! Finds the source's text: the folder SWRASTER_SRC, or ../shared/docs/src beside the repository where that is there.

use std::path::{Path, PathBuf};
use std::{env, fs};

/// The files that are compiled as they stand.
const WHOLE: [&str; 3] = ["texture.rs", "math.rs", "util.rs"];

/// What texture.rs takes from scene.rs: the lines from the first of these to the last.
const SCENE: [&str; 2] = ["pub enum SceneError", "pub type SceneResult"];

fn main() {
    println!("cargo:rerun-if-env-changed=SWRASTER_SRC");
    println!("cargo:rustc-check-cfg=cfg(given)");
    let Some(folder) = folder() else {
        return;
    };
    for file in WHOLE.iter().chain(&["scene.rs"]) {
        println!("cargo:rerun-if-changed={}", folder.join(file).display());
    }
    let out = PathBuf::from(env::var_os("OUT_DIR").expect("cargo sets OUT_DIR"));
    fs::write(out.join("scene.rs"), scene(&folder)).expect("OUT_DIR can be written");
    println!("cargo:rustc-env=SWRASTER_TEXT={}", folder.display());
    println!("cargo:rustc-cfg=given");
    println!("cargo:given=1");
}

/// The folder with the source's files, where there is one. A folder that was named must have them; an empty name leaves
/// the source out.
fn folder() -> Option<PathBuf> {
    let has_all = |folder: &Path| {
        WHOLE
            .iter()
            .chain(&["scene.rs"])
            .all(|file| folder.join(file).is_file())
    };
    if let Some(named) = env::var_os("SWRASTER_SRC") {
        if named.is_empty() {
            return None;
        }
        let named = fs::canonicalize(&named).unwrap_or(PathBuf::from(named));
        assert!(
            has_all(&named),
            "SWRASTER_SRC: texture.rs, math.rs, util.rs and scene.rs are not all in {}",
            named.display()
        );
        return Some(named);
    }
    let here = PathBuf::from(env::var_os("CARGO_MANIFEST_DIR").expect("cargo sets CARGO_MANIFEST_DIR"));
    let beside = fs::canonicalize(here.join("../../../../../shared/docs/src")).ok()?;
    has_all(&beside).then_some(beside)
}

/// The lines of scene.rs that texture.rs needs: the error type and its result.
fn scene(folder: &Path) -> String {
    let text = fs::read_to_string(folder.join("scene.rs")).expect("scene.rs can be read");
    let lines: Vec<&str> = text.lines().collect();
    let line_of = |start: &str| lines.iter().position(|line| line.starts_with(start));
    let (Some(first), Some(last)) = (line_of(SCENE[0]), line_of(SCENE[1])) else {
        panic!("scene.rs has no {} or no {}", SCENE[0], SCENE[1]);
    };
    format!(
        "use std::error::Error;\nuse std::fmt;\n#[derive(Debug)]\n{}\n",
        lines[first..=last].join("\n")
    )
}
