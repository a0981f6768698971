//! Links the proved library where it is asked for.

use std::env;
use std::path::Path;

fn main() {
    println!("cargo::rerun-if-changed=build.rs");
    if env::var_os("CARGO_FEATURE_PROVED").is_none() {
        return;
    }
    let here = env::var("CARGO_MANIFEST_DIR").expect("cargo names the folder of the manifest");
    let out = Path::new(&here).join("../crates/boundary/out");
    println!("cargo::rustc-link-search=native={}", out.display());
    println!("cargo::rustc-link-lib=static=boundary");
    println!(
        "cargo::rerun-if-changed={}",
        out.join("libboundary.a").display()
    );
}
