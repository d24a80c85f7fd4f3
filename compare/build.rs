//! Links the proved monitor into `speed`, if it was built as a static library, and tells the version of the compiler. The variable
//! `HOST_LIBRARY` can name another file of the library.

use std::path::Path;
use std::process::Command;
use std::{env, fs};

const LIBRARY: &str = "../crates/host/out/libhost.a";

fn main() {
    println!("cargo::rustc-check-cfg=cfg(ours)");
    println!("cargo::rerun-if-changed=build.rs");
    println!("cargo::rerun-if-env-changed=HOST_LIBRARY");
    let library = env::var("HOST_LIBRARY").unwrap_or(LIBRARY.into());
    println!("cargo::rerun-if-changed={library}");
    if let Ok(path) = fs::canonicalize(Path::new(&library)) {
        println!("cargo::rustc-cfg=ours");
        println!("cargo::rustc-link-arg-bin=speed={}", path.display());
    }
    let rustc = env::var("RUSTC").unwrap_or("rustc".into());
    let version = Command::new(rustc).arg("--version").output().map(|output| output.stdout).unwrap_or_default();
    println!("cargo::rustc-env=RUSTC_VERSION={}", String::from_utf8_lossy(&version).trim());
}
