//! Tells the linker where `prepare` put the port's library.

use std::env::var;

fn main() {
    let folder = var("CARGO_MANIFEST_DIR").expect("cargo sets the folder");
    println!("cargo:rustc-link-search=native={folder}");
    println!("cargo:rustc-link-lib=static:-bundle=port_library");
    println!("cargo:rerun-if-changed=libport_library.a");
}
