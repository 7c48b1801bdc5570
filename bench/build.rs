//! Finds the proved static library, and passes on by how many bytes to shift its code.

use std::{env, fs, process};

fn main() {
    println!("cargo:rerun-if-changed=build.rs");
    println!("cargo:rerun-if-env-changed=HOOKUP_LIB");
    println!("cargo:rerun-if-env-changed=HOOKUP_SHIFT");
    let Some(dir) = env::var_os("HOOKUP_LIB") else {
        fail("HOOKUP_LIB is not set. Set it to the folder that holds libhookup.a.");
    };
    let dir = match fs::canonicalize(&dir) {
        Ok(dir) => dir,
        Err(why) => fail(&format!("HOOKUP_LIB names {}, which cannot be opened: {why}.", dir.to_string_lossy())),
    };
    let file = dir.join("libhookup.a");
    if !file.is_file() {
        fail(&format!("There is no libhookup.a in {} (HOOKUP_LIB).", dir.display()));
    }
    let shift = env::var("HOOKUP_SHIFT").unwrap_or_else(|_| "0".into());
    if !["0", "16", "32", "48"].contains(&shift.as_str()) {
        fail(&format!("HOOKUP_SHIFT is {shift}, but must be 0, 16, 32 or 48."));
    }
    println!("cargo:rustc-env=HOOKUP_SHIFT={shift}");
    println!("cargo:rerun-if-changed={}", file.display());
    println!("cargo:rustc-link-search=native={}", dir.display());
    println!("cargo:rustc-link-lib=static=hookup");
}

fn fail(message: &str) -> ! {
    eprintln!("{message}");
    process::exit(1)
}
