//! Links the archive that a crate's `links` names from the project's target/staticlib, where `tools/archive` puts it, or from
//! the folder that STABLEPLY_LIB_DIR names (seen from compare/, where it is relative).

use std::{env, path::Path};

fn main() {
    println!("cargo:rerun-if-env-changed=STABLEPLY_LIB_DIR");
    let set_by_cargo = |name| env::var(name).expect("set by cargo");
    let name = set_by_cargo("CARGO_MANIFEST_LINKS");
    let compare = Path::new(&set_by_cargo("CARGO_MANIFEST_DIR")).join("..");
    let folder = compare.join(env::var_os("STABLEPLY_LIB_DIR").unwrap_or("../target/staticlib".into()));
    let archive = folder.join(format!("lib{name}.a"));
    let there = archive.display();
    assert!(archive.is_file(), "there is no {there}: make it by `tools/archive {name}`, or set STABLEPLY_LIB_DIR");
    println!("cargo:rerun-if-changed={there}");
    println!("cargo:rustc-link-search=native={}", folder.display());
    println!("cargo:rustc-link-lib=static={name}");
}
