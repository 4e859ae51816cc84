//! Finds the proved library, libubrenchip.a, and has it linked: in the folder that UBRENCHIP_LIB
//! names, or else where tools/library of this repository writes it.

use std::env;
use std::path::PathBuf;
use std::process::exit;

fn main() {
    println!("cargo:rerun-if-env-changed=UBRENCHIP_LIB");
    let folder = match env::var_os("UBRENCHIP_LIB") {
        Some(folder) => PathBuf::from(folder),
        None => {
            let crate_folder = env::var_os("CARGO_MANIFEST_DIR").expect("cargo sets it");
            PathBuf::from(crate_folder).join("../../target/library")
        }
    };
    let archive = folder.join("libubrenchip.a");
    println!("cargo:rerun-if-changed={}", archive.display());
    if !archive.is_file() {
        eprintln!("there is no {}: run tools/library first", archive.display());
        exit(1);
    }
    println!("cargo:rustc-link-search=native={}", folder.display());
    println!("cargo:rustc-link-lib=static=ubrenchip");
}
