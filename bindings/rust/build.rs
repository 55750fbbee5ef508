//! Links `libbtreap.a`: from the folder that `BTREAP_LIB_DIR` names, or else from where this repository builds it.
use std::env;
use std::path::PathBuf;

fn main() {
    let folder = env::var_os("BTREAP_LIB_DIR").map(PathBuf::from).unwrap_or_else(|| {
        PathBuf::from(env::var_os("CARGO_MANIFEST_DIR").expect("cargo names the package's folder")).join("../../target/staticlib")
    });
    println!("cargo:rerun-if-env-changed=BTREAP_LIB_DIR");
    println!("cargo:rerun-if-changed={}", folder.join("libbtreap.a").display());
    println!("cargo:rustc-link-search=native={}", folder.display());
    println!("cargo:rustc-link-lib=static=btreap");
}
