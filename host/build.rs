//! Finds the archive to link: in `target/staticlib`, where `host/sh/archive.sh` writes it, which is for x86-64. For another
//! processor `target/native` is looked at. `RUMCHIVOAT_ARCHIVE` can name another folder.
//!
//! An archive with another interface than the crate's is refused here, so that no call has to look: a program of one line
//! is built over it and asked.
//!
//! Without the archive the crate can be checked and documented, and not linked: a build cannot tell here which of them
//! it is, so the cure is a warning, and the compiler's own error follows it where the archive is needed.

use std::env;
use std::fs;
use std::path::{Path, PathBuf};
use std::process::Command;

/// The function that every archive with an interface number has. One from before there was a number has not.
const INTERFACE: &str = "rumchivoat_interface";

/// Tells the archive's number.
const PROBE: &str = "
unsafe extern \"C\" {
    fn rumchivoat_interface() -> u32;
}

fn main() {
    println!(\"{}\", unsafe { rumchivoat_interface() });
}
";

fn main() {
    println!("cargo::rerun-if-env-changed=RUMCHIVOAT_ARCHIVE");
    println!("cargo::rerun-if-changed=build.rs");
    println!("cargo::rerun-if-changed=src/interface.rs");
    let folder = archive_folder();
    let archive = folder.join("librumchivoat.a");
    println!("cargo::rerun-if-changed={}", archive.display());
    match fs::read(&archive) {
        Ok(bytes) => check_interface(&folder, &archive, &bytes),
        Err(error) => println!("cargo::warning={} cannot be read ({error}): {}", archive.display(), cure()),
    }
    println!("cargo::rustc-link-search=native={}", folder.display());
    println!("cargo::rustc-link-lib=static=rumchivoat");
}

/// The archive's list of symbols has the name as it is; what number the function answers is told by calling it.
fn check_interface(folder: &Path, archive: &Path, bytes: &[u8]) {
    let archive = archive.display();
    if !bytes.windows(INTERFACE.len()).any(|part| part == INTERFACE.as_bytes()) {
        println!("cargo::error={archive} is from before there was an interface number: {}", cure());
        return;
    }
    let due = crates_interface();
    match archives_interface(folder) {
        Some(number) if number == due => {}
        Some(number) => println!(
            "cargo::error={archive} has interface {number}, and this crate is written for {due}: build both from one \
             checkout"
        ),
        None => println!("cargo::warning=the interface of {archive} was not asked here: call check_interface()"),
    }
}

/// The number that the crate is written for, where it stands.
fn crates_interface() -> u32 {
    let text = fs::read_to_string("src/interface.rs").expect("the crate's own text can be read");
    let number = text.lines().find_map(|line| line.strip_prefix("pub const INTERFACE: u32 = "));
    number.and_then(|number| number.trim_end_matches(';').parse().ok()).expect("src/interface.rs has the number")
}

/// The number that the archive answers; `None` where a program for it cannot be built or run here.
fn archives_interface(folder: &Path) -> Option<u32> {
    if env::var_os("HOST") != env::var_os("TARGET") {
        return None;
    }
    let out = PathBuf::from(env::var_os("OUT_DIR")?);
    let (text, program) = (out.join("probe.rs"), out.join("probe"));
    fs::write(&text, PROBE).ok()?;
    let mut search = std::ffi::OsString::from("native=");
    search.push(folder);
    let mut rustc = Command::new(env::var_os("RUSTC")?);
    rustc.args(["--edition=2024", "-l", "static=rumchivoat", "-L"]).arg(search).arg("-o").arg(&program).arg(&text);
    if !rustc.status().ok()?.success() {
        return None;
    }
    let answer = Command::new(&program).output().ok()?;
    String::from_utf8(answer.stdout).ok()?.trim().parse().ok()
}

fn on_x86_64() -> bool {
    env::var("CARGO_CFG_TARGET_ARCH").is_ok_and(|processor| processor == "x86_64")
}

fn archive_folder() -> PathBuf {
    if let Some(folder) = env::var_os("RUMCHIVOAT_ARCHIVE") {
        return PathBuf::from(folder);
    }
    let host = PathBuf::from(env::var_os("CARGO_MANIFEST_DIR").expect("cargo sets the folder of a package"));
    host.join(if on_x86_64() { "../target/staticlib" } else { "../target/native" })
}

fn cure() -> &'static str {
    if on_x86_64() {
        "run `sh host/sh/archive.sh` at the top of the repository, or name the archive's folder in RUMCHIVOAT_ARCHIVE"
    } else {
        "the Rattle kit writes for x86-64 alone: name the folder of an archive for this processor in RUMCHIVOAT_ARCHIVE"
    }
}
