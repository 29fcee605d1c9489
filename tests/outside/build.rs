//! Links libvarnwalnut.a: from the folder in VARNWALNUT_LIB, else from where the repository builds it.

use std::env;

fn main() {
    let package = env::var("CARGO_MANIFEST_DIR").expect("cargo names the package folder");
    let folder = env::var("VARNWALNUT_LIB").unwrap_or_else(|_| format!("{package}/../../crates/varnwalnut/out"));
    println!("cargo:rerun-if-env-changed=VARNWALNUT_LIB");
    println!("cargo:rerun-if-changed={folder}/libvarnwalnut.a");
    println!("cargo:rustc-link-search=native={folder}");
    println!("cargo:rustc-link-lib=static=varnwalnut");
}
