//! Links libtroscunel.a: from the folder that TROSCUNEL_LIBRARY names, else from the repository's target/staticlib.

use std::path::{Path, PathBuf};

const FOLDER: &str = "TROSCUNEL_LIBRARY";

fn main() {
    println!("cargo:rerun-if-env-changed={FOLDER}");
    println!("cargo:rerun-if-changed=build.rs");
    let folder = std::env::var_os(FOLDER).map(PathBuf::from);
    let own = folder.is_none();
    let folder = folder.unwrap_or_else(|| Path::new(env!("CARGO_MANIFEST_DIR")).join("../../target/staticlib"));
    let archive = folder.join("libtroscunel.a");
    println!("cargo:rerun-if-changed={}", archive.display());
    if !archive.is_file() {
        stop(&format!("{} is missing. 'hosts/library' in the repository writes target/staticlib/libtroscunel.a; {FOLDER} names another folder that has it", archive.display()));
    }
    let target = std::env::var("CARGO_CFG_TARGET_ARCH").unwrap_or_default();
    if own && target != "x86_64" {
        stop(&format!("target/staticlib/libtroscunel.a is for x86-64, and this build is for {target}. Build with --target x86_64-unknown-linux-gnu, or let {FOLDER} name a folder with a libtroscunel.a for {target}"));
    }
    println!("cargo:rustc-link-search=native={}", folder.display());
    println!("cargo:rustc-link-lib=static=troscunel");
}

/// Cargo prints what a build script says on standard error when the script fails.
fn stop(why: &str) -> ! {
    eprintln!("troscunel: {why}.");
    std::process::exit(1)
}
