//! Makes libtinladle.a with the Rattle kit, or takes it from the folder that TINLADLE_LIB_DIR names, and links it.

use std::env;
use std::fs;
use std::io::ErrorKind;
use std::path::{Path, PathBuf};
use std::process::{Command, exit};

const LIBRARY: &str = "libtinladle.a";

/// One clear message in place of a panic's text, and no build.
fn stop(message: &str) -> ! {
    eprintln!("\ntinladle: {message}");
    exit(1)
}

fn variable(name: &str) -> String {
    env::var(name).unwrap_or_else(|_| stop(&format!("{name} is not set: run this through cargo")))
}

/// The repository's root: the folder above this crate, where crates.txt stands.
fn root() -> PathBuf {
    let own = PathBuf::from(variable("CARGO_MANIFEST_DIR"));
    let above = own.parent().map(Path::to_path_buf).unwrap_or_default();
    if !above.join("crates.txt").is_file() {
        stop(&format!(
            "no crates.txt in {}. The crate stands in the folder rust/ of the Tinladle repository and is built there; \
             elsewhere set TINLADLE_LIB_DIR to a folder that holds {LIBRARY}",
            above.display()
        ));
    }
    above
}

fn last_lines(bytes: &[u8], count: usize) -> String {
    let text = String::from_utf8_lossy(bytes);
    let lines: Vec<&str> = text.lines().collect();
    lines[lines.len().saturating_sub(count)..].join("\n")
}

/// Runs `rt lib` in the library's crate, which proves it unless nothing changed since it last did.
fn make(root: &Path) -> PathBuf {
    let crate_folder = root.join("crates/tinladle");
    let run = Command::new("rt").arg("lib").current_dir(&crate_folder).output();
    match run {
        Ok(done) if done.status.success() => crate_folder.join("out").join(LIBRARY),
        Ok(done) => stop(&format!(
            "`rt lib` in crates/tinladle failed ({}). Its last lines:\n{}\n{}",
            done.status,
            last_lines(&done.stdout, 20),
            last_lines(&done.stderr, 20)
        )),
        Err(error) if error.kind() == ErrorKind::NotFound => stop(&format!(
            "the command `rt` is missing. Put the Rattle kit's `rt` on the PATH, or set TINLADLE_LIB_DIR to a folder \
             that holds {LIBRARY} as `rt lib` writes it (crates/tinladle/out)"
        )),
        Err(error) => stop(&format!("`rt lib` in crates/tinladle could not be started: {error}")),
    }
}

/// The library in the folder that the caller names.
fn given(folder: &str) -> PathBuf {
    let library = Path::new(folder).join(LIBRARY);
    if !library.is_file() {
        stop(&format!("TINLADLE_LIB_DIR is {folder}, and there is no {LIBRARY} in it"));
    }
    println!("cargo::rerun-if-changed={}", library.display());
    library
}

/// What the library is made of, without the folders out/ that `rt` writes beside it.
fn watch(root: &Path) {
    println!("cargo::rerun-if-changed={}", root.join("crates.txt").display());
    let crates = fs::read_dir(root.join("crates")).unwrap_or_else(|error| stop(&format!("cannot read crates/: {error}")));
    for one in crates.flatten() {
        for part in ["src", "specs", "proofs"] {
            let folder = one.path().join(part);
            if folder.is_dir() {
                println!("cargo::rerun-if-changed={}", folder.display());
            }
        }
    }
}

fn main() {
    println!("cargo::rerun-if-env-changed=TINLADLE_LIB_DIR");
    println!("cargo::rerun-if-changed=build.rs");
    if variable("CARGO_CFG_TARGET_ARCH") != "x86_64" {
        stop("the Rattle kit writes static libraries for x86-64 alone");
    }
    let library = match env::var("TINLADLE_LIB_DIR") {
        Ok(folder) if !folder.is_empty() => given(&folder),
        _ => {
            let root = root();
            watch(&root);
            make(&root)
        }
    };
    // A copy of our own: a folder out/ may be removed, and cargo must still be able to link.
    let out = PathBuf::from(variable("OUT_DIR"));
    if let Err(error) = fs::copy(&library, out.join(LIBRARY)) {
        stop(&format!("cannot copy {}: {error}", library.display()));
    }
    println!("cargo::rustc-link-search=native={}", out.display());
    println!("cargo::rustc-link-lib=static=tinladle");
}
