//! Links the proved library if it has been built; without it the host still builds and tests itself.

use std::env;
use std::path::PathBuf;

fn main() {
    let host = PathBuf::from(env::var_os("CARGO_MANIFEST_DIR").expect("cargo names the folder"));
    let libraries = ["capi", "host_calls"];
    let folder = |name: &str| host.join(format!("../crates/{name}/out"));
    let file = |name: &str| folder(name).join(format!("lib{name}.a"));
    println!("cargo:rerun-if-changed=build.rs");
    println!("cargo:rustc-check-cfg=cfg(linked)");
    for name in libraries {
        println!("cargo:rerun-if-changed={}", file(name).display());
    }
    if libraries.iter().all(|name| file(name).exists()) {
        println!("cargo:rustc-cfg=linked");
        for name in libraries {
            println!("cargo:rustc-link-search=native={}", folder(name).display());
            println!("cargo:rustc-link-lib=static={name}");
        }
    }
}
