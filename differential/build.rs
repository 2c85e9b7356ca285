//! Edits the original into `OUT_DIR` and links the library.

mod edits;

use edits::File;
use std::path::{Path, PathBuf};
use std::process::Command;
use std::{env, fs};

fn main() {
    let here = PathBuf::from(env::var_os("CARGO_MANIFEST_DIR").expect("set by cargo"));
    let out = PathBuf::from(env::var_os("OUT_DIR").expect("set by cargo"));
    let files = [edits::bezier::FILE, edits::geom::FILE];
    let original = find_original(&here, &files);
    for file in &files {
        let path = original.join(file.name);
        println!("cargo:rerun-if-changed={}", path.display());
        let text = fs::read_to_string(&path).unwrap_or_else(|e| panic!("{}: {e}", path.display()));
        let text = file.edited(text);
        write(&out, file, &text);
        if file.name == edits::bezier::FILE.name {
            for again in [edits::branches::FILE, edits::placed::FILE] {
                write(&out, &again, &again.edited(text.clone()));
            }
        }
    }
    link(&here, &out);
}

fn write(out: &Path, file: &File, text: &str) {
    fs::write(out.join(file.name), text).expect("OUT_DIR can be written");
}

/// The folder of the original's files: in `ZIGZAG_SRC`, or else in `shared/` beside the repository.
fn find_original(here: &Path, files: &[File]) -> PathBuf {
    println!("cargo:rerun-if-env-changed=ZIGZAG_SRC");
    let given = env::var_os("ZIGZAG_SRC").map(PathBuf::from);
    let root = given.unwrap_or_else(|| here.join("../../shared/docs/src"));
    [root.join("src"), root.clone()]
        .into_iter()
        .find(|folder| files.iter().all(|file| folder.join(file.name).is_file()))
        .unwrap_or_else(|| {
            panic!(
                "no bezier.rs and geom.rs in {}: set ZIGZAG_SRC",
                root.display()
            )
        })
}

/// Links liboutline.a, from the folder in `OUTLINE_LIB` or from where `rt lib` writes it.
fn link(here: &Path, out: &Path) {
    println!("cargo:rerun-if-env-changed=OUTLINE_LIB");
    let given = env::var_os("OUTLINE_LIB").map(PathBuf::from);
    let folder = given.unwrap_or_else(|| here.join("../crates/outline/out"));
    let library = folder.join("liboutline.a");
    assert!(
        library.is_file(),
        "no {}: run `rt lib` in crates/outline, or set OUTLINE_LIB",
        library.display()
    );
    println!("cargo:rerun-if-changed={}", library.display());
    align(&library, &out.join("liboutline.a"));
    println!("cargo:rustc-link-search=native={}", out.display());
    println!("cargo:rustc-link-lib=static=outline");
}

/// The library with each function at a multiple of 64 bytes: the same instructions at another place took up to
/// 1.4 times as long, so that a change elsewhere moved what `bench` says of `root`.
fn align(library: &Path, aligned: &Path) {
    let done = Command::new("objcopy")
        .args(["--set-section-alignment", ".text.*=64"])
        .args([library, aligned])
        .status();
    assert!(done.is_ok_and(|s| s.success()), "objcopy (binutils) failed");
}
