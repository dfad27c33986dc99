//! Proves the crate `leaves_c` of the repository, the functions of `leaves` over C linkage, and links its static library
//! under the name of `leaves`.

use std::path::{Path, PathBuf};
use std::process::{self, Command};

const ROOT: &str = "../..";
const CRATE: &str = "leaves_c";
const LIBRARY: &str = "leaves";

fn main() {
    let package = PathBuf::from(std::env::var_os("CARGO_MANIFEST_DIR").expect("set by cargo"));
    let folder = PathBuf::from(std::env::var_os("OUT_DIR").expect("set by cargo"));
    let root = package.join(ROOT).canonicalize().expect("the repository's root");
    println!("cargo:rerun-if-changed=build.rs");
    watch(&root);
    let krate = root.join("crates").join(CRATE);
    match Command::new("rt").arg("lib").current_dir(&krate).output() {
        Ok(out) if out.status.success() => {}
        Ok(out) => stop(&format!("rt lib in {}: {}", krate.display(), said(&out))),
        Err(e) => stop(&format!("the Rattle kit's command 'rt' does not run: {e}")),
    }
    let made = krate.join("out").join(format!("lib{CRATE}.a"));
    if let Err(e) = std::fs::copy(&made, folder.join(format!("lib{LIBRARY}.a"))) {
        stop(&format!("{}: {e}", made.display()));
    }
    println!("cargo:rustc-link-search=native={}", folder.display());
    println!("cargo:rustc-link-lib=static={LIBRARY}");
}

/// What the library is proved and built of.
fn watch(root: &Path) {
    println!("cargo:rerun-if-changed={}", root.join("crates.txt").display());
    for entry in root.join("crates").read_dir().expect("the repository's crates").flatten() {
        for part in ["src", "specs", "proofs"].map(|it| entry.path().join(it)) {
            if part.exists() {
                println!("cargo:rerun-if-changed={}", part.display());
            }
        }
    }
}

fn said(out: &process::Output) -> String {
    format!("{}{}", String::from_utf8_lossy(&out.stdout), String::from_utf8_lossy(&out.stderr))
}

fn stop(why: &str) -> ! {
    eprintln!("{why}");
    process::exit(1)
}
