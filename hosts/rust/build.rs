//! Links the archive that `tools/archive` writes at the repository's root.
use std::path::{Path, PathBuf};

fn main() {
    let target = variable("TARGET");
    if !target.starts_with("x86_64-") || !target.contains("-linux-") {
        stop(&format!("The verified library is made for Linux on x86-64, not for {target}."));
    }
    println!("cargo:rerun-if-env-changed=NIKOREPUM_LIB");
    let folder = std::env::var_os("NIKOREPUM_LIB").map_or_else(built_in_the_repository, PathBuf::from);
    let archive = folder.join("libstation.a");
    println!("cargo:rerun-if-changed={}", archive.display());
    if !archive.is_file() {
        stop(&format!(
            "The verified library is missing: there is no {}.\n\
             Run `tools/archive` at the root of the repository, which proves every function (some minutes),\n\
             or set NIKOREPUM_LIB to the full path of the folder that holds libstation.a.",
            archive.display()
        ));
    }
    println!("cargo:rustc-link-search=native={}", folder.display());
    println!("cargo:rustc-link-lib=static=station");
}

/// This crate lies two folders below the repository's root.
fn built_in_the_repository() -> PathBuf {
    let here = variable("CARGO_MANIFEST_DIR");
    let root = Path::new(&here).ancestors().nth(2).unwrap_or(Path::new(&here));
    root.join("target/staticlib")
}

/// A variable that cargo sets for every build script.
fn variable(name: &str) -> String {
    std::env::var(name).unwrap_or_else(|_| stop(&format!("cargo has not set {name}.")))
}

fn stop(why: &str) -> ! {
    eprintln!("{why}");
    std::process::exit(1)
}
