//! Links libgomzelat.a: out of the folder that GOMZELAT_LIB names, else out of the one that bindings/build makes, else out
//! of the one that pkg-config knows.

use std::env;
use std::path::{Path, PathBuf};
use std::process::{exit, Command};

const LIBRARY: &str = "libgomzelat.a";

fn main() {
    println!("cargo:rerun-if-env-changed=GOMZELAT_LIB");
    let folders = folders();
    for folder in &folders {
        println!("cargo:rerun-if-changed={}", folder.join(LIBRARY).display());
    }
    match folders.iter().find(|folder| folder.join(LIBRARY).exists()) {
        Some(folder) => link(folder),
        None => {
            for folder in &folders {
                eprintln!("there is no {}", folder.join(LIBRARY).display());
            }
            eprintln!("Run bindings/build, which makes it, or name its folder in GOMZELAT_LIB.");
            exit(1);
        }
    }
}

fn link(folder: &Path) {
    println!("cargo:rustc-link-search=native={}", folder.display());
    println!("cargo:rustc-link-lib=static=gomzelat");
}

/// Where the library may be. What is named is the only place.
fn folders() -> Vec<PathBuf> {
    if let Some(named) = env::var_os("GOMZELAT_LIB") {
        return vec![named.into()];
    }
    let here = PathBuf::from(env::var_os("CARGO_MANIFEST_DIR").expect("cargo sets it"));
    let mut found = vec![here.join("../out")];
    found.extend(installed());
    found
}

fn installed() -> Option<PathBuf> {
    let told = Command::new("pkg-config")
        .args(["--variable=libdir", "gomzelat"])
        .output()
        .ok()?;
    let folder = String::from_utf8(told.stdout).ok()?;
    (told.status.success() && !folder.trim().is_empty()).then(|| folder.trim().into())
}
