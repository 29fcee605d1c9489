//! Links libvarnwalnut.a: from the folder that VARNWALNUT_LIB names, else from where the repository builds it.
use std::env;
use std::path::PathBuf;

fn folder() -> PathBuf {
    match env::var_os("VARNWALNUT_LIB") {
        Some(folder) => PathBuf::from(folder),
        None => PathBuf::from(env::var_os("CARGO_MANIFEST_DIR").expect("cargo sets it")).join("../crates/varnwalnut/out"),
    }
}

fn main() {
    let folder = folder();
    println!("cargo:rerun-if-env-changed=VARNWALNUT_LIB");
    println!("cargo:rerun-if-changed={}", folder.join("libvarnwalnut.a").display());
    println!("cargo:rustc-link-search=native={}", folder.display());
    println!("cargo:rustc-link-lib=static=varnwalnut");
}
