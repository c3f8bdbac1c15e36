//! Links the static library from the directory AQTOVMESH_LIB, or from the repository's own target/lib.
use std::env;
use std::path::PathBuf;

fn main() {
    println!("cargo:rerun-if-env-changed=AQTOVMESH_LIB");
    let manifest = PathBuf::from(env::var_os("CARGO_MANIFEST_DIR").expect("cargo sets CARGO_MANIFEST_DIR"));
    let dir = match env::var_os("AQTOVMESH_LIB") {
        Some(dir) => PathBuf::from(dir),
        None => manifest.join("../../target/lib"),
    };
    // `make lib` names it after the product, `rt lib` after its crate, which was `host` once
    let names = ["aqtovmesh", "host_c", "host"];
    let Some(name) = names.iter().find(|name| dir.join(format!("lib{name}.a")).exists()) else {
        panic!("no libaqtovmesh.a, libhost_c.a or libhost.a in {}: run `make lib`, or name its directory in AQTOVMESH_LIB", dir.display());
    };
    println!("cargo:rerun-if-changed={}", dir.join(format!("lib{name}.a")).display());
    println!("cargo:rustc-link-search=native={}", dir.display());
    println!("cargo:rustc-link-lib=static={name}");
}
