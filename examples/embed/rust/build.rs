//! Links the library: in build/ at the top of the repository, where `tools/library` makes it, in lib/ of a release, or in the folder that
//! LOKBREZ_BUILD names.
use std::{env, path::PathBuf};

fn main() {
    println!("cargo:rerun-if-env-changed=LOKBREZ_BUILD");
    let top = PathBuf::from(env::var_os("CARGO_MANIFEST_DIR").expect("cargo's folder")).join("../../..");
    let made = top.join(if top.join("tools/library").exists() { "build" } else { "lib" });
    let folder = env::var_os("LOKBREZ_BUILD").map_or(made, PathBuf::from);
    assert!(folder.join("libsercos.a").exists(), "{} has no libsercos.a: run tools/library first", folder.display());
    println!("cargo:rerun-if-changed={}", folder.join("libsercos.a").display());
    println!("cargo:rustc-link-search=native={}", folder.display());
    println!("cargo:rustc-link-lib=static=sercos");
}
