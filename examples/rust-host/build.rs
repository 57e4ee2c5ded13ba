//! Links the proved library: that of the repository's crates/am29332/out, or the one in the
//! folder that AM29332_LIB names.
use std::env;
use std::path::PathBuf;

fn main() {
    println!("cargo:rerun-if-env-changed=AM29332_LIB");
    let here = PathBuf::from(env::var("CARGO_MANIFEST_DIR").expect("cargo sets it"));
    let folder = env::var("AM29332_LIB")
        .map_or_else(|_| here.join("../../crates/am29332/out"), PathBuf::from);
    println!(
        "cargo:rerun-if-changed={}",
        folder.join("libam29332.a").display()
    );
    println!("cargo:rustc-link-search=native={}", folder.display());
    println!("cargo:rustc-link-lib=static=am29332");
}
