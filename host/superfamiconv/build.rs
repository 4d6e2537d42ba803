//! Assembles the Rust's source tree in `OUT_DIR`: its files byte for byte, and beside them the stand-in modules that
//! its text names and does not have.

use std::env;
use std::fs;
use std::path::{Path, PathBuf};

fn main() {
    println!("cargo::rustc-check-cfg=cfg(present)");
    println!("cargo::rerun-if-env-changed=RUMCHIVOAT_RUST");
    println!("cargo::rerun-if-changed=build.rs");
    println!("cargo::rerun-if-changed=stand-ins");

    let here = folder_of("CARGO_MANIFEST_DIR");
    let tree = folder_of("OUT_DIR").join("rust");
    let rust = rust_folder(&here);
    println!("cargo::rerun-if-changed={}", rust.display());
    println!("cargo::rustc-env=RUMCHIVOAT_RUST_LOOKED_IN={}", rust.display());
    if !rust.join("lib.rs").is_file() {
        return;
    }
    if tree.exists() {
        fs::remove_dir_all(&tree).expect("the tree of an earlier build can be removed");
    }
    copy_rust_files(&here.join("stand-ins"), &tree);
    copy_rust_files(&rust, &tree);
    write_root(&tree);
    fs::write(tree.join("open_tile.rs"), included(&tree, "tile.rs")).expect("open_tile.rs can be written");
    println!("cargo::rustc-cfg=present");
}

fn folder_of(variable: &str) -> PathBuf {
    PathBuf::from(env::var_os(variable).expect("cargo sets the folders of a build"))
}

/// The folder that `RUMCHIVOAT_RUST` names, or `shared/docs/src` beside the repository.
fn rust_folder(here: &Path) -> PathBuf {
    match env::var_os("RUMCHIVOAT_RUST") {
        Some(folder) => PathBuf::from(folder),
        None => here.join("../../../shared/docs/src"),
    }
}

fn copy_rust_files(from: &Path, to: &Path) {
    fs::create_dir_all(to).expect("a folder of the tree can be made");
    for item in fs::read_dir(from).expect("a folder of the Rust can be read") {
        let path = item.expect("a folder of the Rust can be read").path();
        let place = to.join(path.file_name().expect("a listed file has a name"));
        if path.is_dir() {
            copy_rust_files(&path, &place);
        } else if path.extension().is_some_and(|extension| extension == "rs") {
            fs::copy(&path, &place).expect("a file of the Rust can be copied");
        }
    }
}

/// The text of a file of the Rust's that is to be included. Such a file cannot begin with documentation of its module:
/// those lines are left out.
fn included(tree: &Path, name: &str) -> String {
    let text = fs::read_to_string(tree.join(name)).expect("a file of the Rust can be read");
    text.lines().filter(|line| !line.starts_with("//!")).map(|line| format!("{line}\n")).collect()
}

/// The Rust's list of modules, as `root.rs`, which `src/lib.rs` includes. The warnings of the Rust's text are not this
/// repository's to mend.
fn write_root(tree: &Path) {
    let root: String = included(tree, "lib.rs")
        .lines()
        .map(|line| match line.starts_with("pub mod ") {
            true => format!("#[allow(warnings, clippy::all, clippy::pedantic)]\n{line}\n"),
            false => format!("{line}\n"),
        })
        .collect();
    fs::write(tree.join("root.rs"), root).expect("root.rs can be written");
}
