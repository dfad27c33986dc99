//! Names the Rust sources of the driver for the compiler.
//!
//! They are read from the folder in CONNECTX3_RUST_SRC, or from the default
//! below, and no copy of them is kept in the repository. A source with private
//! items that the oracle needs is compiled from OUT_DIR as its whole unchanged
//! text followed by a module `oracle_access` (src/access); the others are
//! compiled where they lie.

use std::path::{Path, PathBuf};
use std::{env, fs, process};

const VARIABLE: &str = "CONNECTX3_RUST_SRC";
const DEFAULT: &str = "../../../shared/docs/src";
const SOURCES: [&str; 5] = ["fw", "hcr", "dma", "bars", "pci"];

fn main() {
    println!("cargo:rerun-if-env-changed={VARIABLE}");
    let package = PathBuf::from(env::var_os("CARGO_MANIFEST_DIR").expect("set by cargo"));
    let out = PathBuf::from(env::var_os("OUT_DIR").expect("set by cargo"));
    let folder = env::var_os(VARIABLE).map_or_else(|| package.join(DEFAULT), PathBuf::from);
    let folder = folder.canonicalize().unwrap_or_else(|e| stop(&folder, &e.to_string()));
    let modules: String = SOURCES.iter().map(|name| module(&package, &folder, &out, name)).collect();
    write(&out.join("sources.rs"), &modules);
}

/// The `mod` item for one source.
fn module(package: &Path, folder: &Path, out: &Path, name: &str) -> String {
    let source = folder.join(name).with_extension("rs");
    let access = package.join("src/access").join(name).with_extension("rs");
    println!("cargo:rerun-if-changed={}", source.display());
    println!("cargo:rerun-if-changed={}", access.display());
    let text = fs::read_to_string(&source).unwrap_or_else(|e| stop(&source, &e.to_string()));
    let path = match fs::read_to_string(&access) {
        Ok(more) => {
            let whole = out.join(name).with_extension("rs");
            write(&whole, &format!("{text}\n{more}"));
            whole
        }
        Err(_) => source,
    };
    format!("#[allow(unused, clippy::all)]\n#[path = {path:?}]\npub mod {name};\n")
}

fn write(path: &Path, text: &str) {
    fs::write(path, text).unwrap_or_else(|e| stop(path, &e.to_string()));
}

fn stop(path: &Path, why: &str) -> ! {
    eprintln!("{}: {why}", path.display());
    eprintln!("Set {VARIABLE} to the folder with fw.rs, hcr.rs, dma.rs, bars.rs and pci.rs of the driver.");
    process::exit(1)
}
