//! Finds libdehokuna: in the folder that DEHOKUNA_LIB_DIR names, or by pkg-config. It is linked statically where DEHOKUNA_STATIC is 1.

use std::env;
use std::process::Command;

/// The folder of the library, as pkg-config tells it.
fn by_pkg_config() -> Option<String> {
    let program = env::var("PKG_CONFIG").unwrap_or_else(|_| "pkg-config".to_string());
    let told = Command::new(program).args(["--variable=libdir", "dehokuna"]).output().ok()?;
    let folder = String::from_utf8(told.stdout).ok()?.trim().to_string();
    (told.status.success() && !folder.is_empty()).then_some(folder)
}

fn main() {
    for name in ["DEHOKUNA_LIB_DIR", "DEHOKUNA_STATIC", "PKG_CONFIG", "PKG_CONFIG_PATH"] {
        println!("cargo:rerun-if-env-changed={name}");
    }
    match env::var("DEHOKUNA_LIB_DIR").ok().or_else(by_pkg_config) {
        Some(folder) => println!("cargo:rustc-link-search=native={folder}"),
        None => println!("cargo:warning=neither DEHOKUNA_LIB_DIR nor pkg-config tells where libdehokuna is"),
    }
    let is_static = env::var("DEHOKUNA_STATIC").map_or(false, |word| word == "1");
    println!("cargo:rustc-link-lib={}=dehokuna", if is_static { "static" } else { "dylib" });
}
