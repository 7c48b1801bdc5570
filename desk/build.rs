//! Tells cargo where the proved library is, and the tool with which kit it was proved.

use std::path::{Path, PathBuf};
use std::process::exit;
use std::{env, fs};

/// The folder of libhookup.a: HOOKUP_LIB, or where `tools/build library` puts it.
fn folder(root: &Path) -> PathBuf {
    match env::var_os("HOOKUP_LIB").filter(|folder| !folder.is_empty()) {
        Some(folder) => PathBuf::from(folder),
        None => root.join("target/staticlib"),
    }
}

fn main() {
    let root = Path::new(env!("CARGO_MANIFEST_DIR")).join("..");
    let archive = folder(&root).join("libhookup.a");
    if !archive.is_file() {
        eprintln!("hookup: {} is missing: `tools/build library` makes it", archive.display());
        exit(1);
    }
    let kit = fs::read_to_string(root.join("KIT")).unwrap_or_default();
    println!("cargo:rerun-if-changed=build.rs");
    println!("cargo:rerun-if-changed={}", root.join("KIT").display());
    println!("cargo:rerun-if-changed={}", archive.display());
    println!("cargo:rerun-if-env-changed=HOOKUP_LIB");
    println!("cargo:rustc-env=HOOKUP_KIT={}", kit.trim());
    println!("cargo:rustc-link-search=native={}", folder(&root).display());
    println!("cargo:rustc-link-lib=static=hookup");
}
