//! Tells cargo where the product's C library is. Only the feature `product` needs it.

use std::env;
use std::path::Path;
use std::process::exit;

fn main() {
    println!("cargo:rerun-if-changed=build.rs");
    println!("cargo:rerun-if-env-changed=HOOKUP_LIB");
    if env::var_os("CARGO_FEATURE_PRODUCT").is_none() {
        return;
    }
    let folder = match env::var("HOOKUP_LIB") {
        Ok(folder) if !folder.is_empty() => folder,
        _ => {
            eprintln!("second: the feature `product` needs HOOKUP_LIB, the folder that holds libhookup.a");
            exit(1);
        }
    };
    if !Path::new(&folder).is_absolute() {
        eprintln!("second: HOOKUP_LIB must be an absolute path, not {}", folder);
        exit(1);
    }
    let archive = Path::new(&folder).join("libhookup.a");
    if !archive.is_file() {
        eprintln!("second: HOOKUP_LIB names no folder with libhookup.a: {} is missing", archive.display());
        exit(1);
    }
    println!("cargo:rerun-if-changed={}", archive.display());
    println!("cargo:rustc-link-search=native={}", folder);
    println!("cargo:rustc-link-lib=static=hookup");
}
