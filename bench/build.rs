//! Finds and links the static library of the exported functions.

use std::env;
use std::path::PathBuf;

/// The processor that is built for has this name on 64-bit Arm.
const ARM: &str = "aarch64";

/// The folder of the library below the project's root, and the command that makes it.
fn usual_folder() -> (&'static str, &'static str) {
    match env::var("CARGO_CFG_TARGET_ARCH").as_deref() {
        Ok(ARM) => ("../target/staticlib-arm", "bench/arm/library"),
        _ => ("../target/staticlib", "bindings/build"),
    }
}

/// Links the library, or says how to make it. SALGEZHIM_STATICLIB names another folder.
fn main() {
    let (usual, command) = usual_folder();
    let here = PathBuf::from(env::var_os("CARGO_MANIFEST_DIR").unwrap_or_default());
    let named = env::var_os("SALGEZHIM_STATICLIB").map(PathBuf::from);
    let folder = named.unwrap_or(here.join(usual));
    let library = folder.join("libexports.a");
    println!("cargo:rerun-if-env-changed=SALGEZHIM_STATICLIB");
    println!("cargo:rerun-if-changed={}", library.display());
    if !library.is_file() {
        let missing = library.display();
        println!("cargo:warning={missing} is missing: make it with `{command}`");
        std::process::exit(1);
    }
    println!("cargo:rustc-link-search=native={}", folder.display());
    println!("cargo:rustc-link-lib=static=exports");
}
