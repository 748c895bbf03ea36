//! Links a static library that the repository's `make` writes. It is looked for in the folder that the environment variable
//! `MDEH_LIB_DIR` names, which has to have it, then beside the package's `Cargo.toml`, then in the repository's
//! `target/staticlib`.
use std::env;
use std::path::{absolute, Path, PathBuf};

/// The variable that names the folder of the archive.
const VARIABLE: &str = "MDEH_LIB_DIR";

/// Has cargo link the library of this name; `root` is the way from the package to the repository. Without the archive
/// it warns: what needs no linking, as `cargo check` and `cargo doc`, still works. Fails if the variable names a folder
/// that does not have the archive. Cargo looks again once the variable or the archive that was found changes.
pub fn library(root: &str, name: &str) {
    println!("cargo::rerun-if-env-changed={VARIABLE}");
    println!("cargo::rustc-link-lib=static={name}");
    let named = env::var_os(VARIABLE).filter(|folder| !folder.is_empty());
    let folders = match &named {
        Some(folder) => vec![absolute(folder).expect("the package's folder is there")],
        None => own_folders(root),
    };
    let archive = |folder: &Path| folder.join(format!("lib{name}.a"));
    match folders.iter().find(|folder| archive(folder).is_file()) {
        Some(folder) => {
            println!("cargo::rerun-if-changed={}", archive(folder).display());
            println!("cargo::rustc-link-search=native={}", folder.display());
        }
        None if named.is_some() => {
            println!(
                "cargo::error={} is missing, in the folder that {VARIABLE} names",
                archive(&folders[0]).display()
            );
        }
        None => warn(name, folders.iter().map(|folder| archive(folder))),
    }
}

/// The folders of the package and the repository that may have the archive.
fn own_folders(root: &str) -> Vec<PathBuf> {
    let package = PathBuf::from(env::var_os("CARGO_MANIFEST_DIR").expect("cargo names the package's folder"));
    let written = package.join(root).join("target").join("staticlib");
    vec![package, written]
}

/// Warns that there is none of these archives, and has cargo look again at each build.
fn warn(name: &str, archives: impl Iterator<Item = PathBuf>) {
    archives.for_each(|archive| println!("cargo::rerun-if-changed={}", archive.display()));
    println!(
        "cargo::warning=lib{name}.a is missing, and what links will fail: run `make target/staticlib/lib{name}.a` in the \
         repository, or name the folder that has it by {VARIABLE}"
    );
}
