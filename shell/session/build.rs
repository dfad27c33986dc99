//! Proves the crate `linkage` of the repository and links its static library; or, where HCA_LIBRARY names a folder, links
//! the library that is there.

use std::path::{Path, PathBuf};
use std::process::{self, Command};

const ROOT: &str = "../..";
const LIBRARY: &str = "linkage";
const VARIABLE: &str = "HCA_LIBRARY";
/// SSE2 and no more: the library is for firmware too.
const CPU: &str = "x86-64";

fn main() {
    println!("cargo:rerun-if-env-changed={VARIABLE}");
    println!("cargo:rerun-if-changed=build.rs");
    let folder = std::env::var_os(VARIABLE).map_or_else(proved, PathBuf::from);
    println!("cargo:rerun-if-changed={}", folder.join(format!("lib{LIBRARY}.a")).display());
    println!("cargo:rustc-link-search=native={}", folder.display());
    println!("cargo:rustc-link-lib=static={LIBRARY}");
}

/// The folder with the library, once it is proved and built.
fn proved() -> PathBuf {
    let package = PathBuf::from(std::env::var_os("CARGO_MANIFEST_DIR").expect("set by cargo"));
    let root = package.join(ROOT).canonicalize().expect("the repository's root");
    watch(&root);
    let krate = root.join("crates").join(LIBRARY);
    match Command::new("rt").args(["lib", "--cpu", CPU]).current_dir(&krate).output() {
        Ok(out) if out.status.success() => krate.join("out"),
        Ok(out) => stop(&format!("rt lib in {}: {}", krate.display(), said(&out))),
        Err(e) => stop(&format!("the Rattle kit's command 'rt' does not run: {e}")),
    }
}

/// What the library is proved and built of.
fn watch(root: &Path) {
    println!("cargo:rerun-if-changed={}", root.join("crates.txt").display());
    for entry in root.join("crates").read_dir().expect("the repository's crates").flatten() {
        for part in ["src", "specs", "proofs"].map(|it| entry.path().join(it)) {
            if part.exists() {
                println!("cargo:rerun-if-changed={}", part.display());
            }
        }
    }
}

fn said(out: &process::Output) -> String {
    format!("{}{}", String::from_utf8_lossy(&out.stdout), String::from_utf8_lossy(&out.stderr))
}

fn stop(why: &str) -> ! {
    eprintln!("{why}");
    process::exit(1)
}
