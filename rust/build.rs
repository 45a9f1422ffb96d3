//! Finds `libstableply.a`, or has it made, and says what to run where neither can be done.

use std::env;
use std::ffi::OsString;
use std::io::ErrorKind;
use std::path::{absolute, Path, PathBuf};
use std::process::{exit, Command};

/// What is linked.
const ARCHIVE: &str = "libstableply.a";
/// Where a user names the folder that holds it.
const FOLDER_VARIABLE: &str = "STABLEPLY_LIB_DIR";

fn main() {
    println!("cargo:rerun-if-changed=build.rs");
    println!("cargo:rerun-if-env-changed={FOLDER_VARIABLE}");
    match archive_folder() {
        Ok(folder) => {
            println!("cargo:rerun-if-changed={}", folder.join(ARCHIVE).display());
            println!("cargo:rustc-link-search=native={}", folder.display());
            println!("cargo:rustc-link-lib=static=stableply");
        }
        Err(sentence) => {
            eprintln!("stableply: {sentence}");
            exit(1);
        }
    }
}

/// The folder that holds the archive: the one that the user names, else the project's own.
fn archive_folder() -> Result<PathBuf, String> {
    if let Some(named) = env::var_os(FOLDER_VARIABLE) {
        return named_folder(named);
    }
    let manifest = env::var_os("CARGO_MANIFEST_DIR").ok_or("cargo did not name the crate's folder.")?;
    let manifest = PathBuf::from(manifest);
    let root = manifest.parent().unwrap_or(&manifest);
    let folder = root.join("target").join("staticlib");
    let target = format!("{} {}", target_part("ARCH"), target_part("OS"));
    if target != "x86_64 linux" {
        return Err(format!(
            "`tools/archive` writes {ARCHIVE} for x86_64 linux, and this build is for {target}. Set {FOLDER_VARIABLE} to a folder with one for it."
        ));
    }
    if !folder.join(ARCHIVE).is_file() {
        make(root, &folder)?;
    }
    Ok(folder)
}

/// What cargo says of the machine that it builds for.
fn target_part(name: &str) -> String {
    env::var(format!("CARGO_CFG_TARGET_{name}")).unwrap_or_default()
}

/// The folder that the user names must hold the archive: nothing else is tried in its place.
fn named_folder(named: OsString) -> Result<PathBuf, String> {
    let folder = absolute(&named).unwrap_or_else(|_| PathBuf::from(&named));
    if folder.join(ARCHIVE).is_file() {
        Ok(folder)
    } else {
        Err(format!(
            "{FOLDER_VARIABLE} names {}, and there is no {ARCHIVE} in it. Copy the archive there, or unset the variable to use the project's own.",
            folder.display()
        ))
    }
}

/// Has the project's `tools/archive` prove the library and write the archive. What it prints is kept from cargo, which would
/// read it as its own, and shown where it failed.
fn make(root: &Path, folder: &Path) -> Result<(), String> {
    let advice =
        format!("Run `tools/archive` in {}, or set {FOLDER_VARIABLE} to the folder that holds {ARCHIVE}.", root.display());
    let missing = format!("there is no {ARCHIVE} in {}", folder.display());
    let script = root.join("tools").join("archive");
    if !script.is_file() {
        return Err(format!(
            "{missing}, and {} is not the project's root, where it could be made. Set {FOLDER_VARIABLE} to the folder that holds {ARCHIVE}.",
            root.display()
        ));
    }
    if let Err(error) = Command::new("rt").arg("version").output() {
        return Err(match error.kind() {
            ErrorKind::NotFound => format!("{missing}, and the command `rt`, which makes it, is not on the PATH. {advice}"),
            _ => format!("{missing}, and `rt` could not be run ({error}). {advice}"),
        });
    }
    let printed = match Command::new(script).current_dir(root).output() {
        Ok(printed) => printed,
        Err(error) => return Err(format!("{missing}, and `tools/archive` could not be run ({error}). {advice}")),
    };
    if printed.status.success() && folder.join(ARCHIVE).is_file() {
        return Ok(());
    }
    eprint!("{}", String::from_utf8_lossy(&printed.stdout));
    eprint!("{}", String::from_utf8_lossy(&printed.stderr));
    Err(format!("{missing}, and `tools/archive` did not make it (what it printed is above). {advice}"))
}
