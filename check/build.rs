//! Tells rustc where the archive under test is.

use std::env;
use std::path::PathBuf;

fn main() {
    println!("cargo:rerun-if-changed=build.rs");
    println!("cargo:rerun-if-env-changed=AQTOVMESH_LIB");
    if env::var_os("CARGO_FEATURE_STUB").is_some() {
        return;
    }
    let folder = match env::var_os("AQTOVMESH_LIB") {
        Some(folder) => PathBuf::from(folder),
        None => PathBuf::from(env::var_os("CARGO_MANIFEST_DIR").unwrap()).join("../target/lib"),
    };
    println!("cargo:rerun-if-changed={}", folder.join("libaqtovmesh.a").display());
    println!("cargo:rustc-link-search=native={}", folder.display());
    println!("cargo:rustc-link-lib=static=aqtovmesh");
}
