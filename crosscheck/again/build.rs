//! MAKHROENG_LIB is the library to compare with, a .o or a .a; without it `again` is built alone and can't compare.
use std::{env, fs};

fn main() {
    println!("cargo:rerun-if-env-changed=MAKHROENG_LIB");
    println!("cargo:rustc-check-cfg=cfg(linked)");
    if let Some(path) = env::var_os("MAKHROENG_LIB").filter(|path| !path.is_empty()) {
        let path = fs::canonicalize(path).expect("MAKHROENG_LIB is not a file");
        println!("cargo:rerun-if-changed={}", path.display());
        println!("cargo:rustc-link-arg={}", path.display());
        println!("cargo:rustc-cfg=linked");
    }
}
