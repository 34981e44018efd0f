//! Links the proved library, `target/staticlib/libgrackleivy.a` of this repository, which `include/library` makes of crates/grackleivy.

use std::env;
use std::path::Path;
use std::process::exit;

fn main() {
    let here = env::var("CARGO_MANIFEST_DIR").expect("cargo names the package's folder");
    let folder = Path::new(&here).join("../../target/staticlib");
    let archive = folder.join("libgrackleivy.a");
    println!("cargo:rerun-if-changed=build.rs");
    println!("cargo:rerun-if-changed={}", archive.display());

    let machine = env::var("CARGO_CFG_TARGET_ARCH").unwrap_or_default();
    if machine != "x86_64" {
        println!("cargo:warning=libgrackleivy.a links only into x86-64 programs, and this build is for {machine}: types are checked, nothing can be run");
        return;
    }
    if !archive.is_file() {
        println!("cargo:warning=target/staticlib/libgrackleivy.a is missing; run: include/library");
        eprintln!("{} is missing; run: include/library", archive.display());
        exit(1);
    }
    println!("cargo:rustc-link-search=native={}", folder.display());
    println!("cargo:rustc-link-lib=static=grackleivy");
}
