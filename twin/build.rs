//! Tells cargo where the verified static library is, if VERIFIED_LIB_DIR names its folder.
//!
//! VERIFIED_LIB is the library's name without `lib` and `.a`; it is `playing_c` if not given.
//! RATTLE_LIB_DIR is the folder of the kit's liblibc_c.a and libos_c.a.
//! With no VERIFIED_LIB_DIR the package builds alone, and `verified::LINKED` is false.

use std::env;
use std::path::Path;

fn main() {
    println!("cargo::rustc-check-cfg=cfg(verified)");
    println!("cargo::rerun-if-changed=build.rs");
    println!("cargo::rerun-if-env-changed=VERIFIED_LIB_DIR");
    println!("cargo::rerun-if-env-changed=VERIFIED_LIB");
    println!("cargo::rerun-if-env-changed=RATTLE_LIB_DIR");
    let Ok(dir) = env::var("VERIFIED_LIB_DIR") else {
        return;
    };
    if dir.is_empty() {
        return;
    }
    let name = env::var("VERIFIED_LIB").unwrap_or_else(|_| "playing_c".to_string());
    let archive = Path::new(&dir).join(format!("lib{name}.a"));
    println!("cargo::rerun-if-changed={}", archive.display());
    if !archive.is_file() {
        println!("cargo::error=VERIFIED_LIB_DIR is set, but there is no {}", archive.display());
        return;
    }
    println!("cargo::rustc-cfg=verified");
    println!("cargo::rustc-link-search=native={dir}");
    println!("cargo::rustc-link-lib=static={name}");
    // The kit's own C code, through which the library allocates.
    if let Ok(kit) = env::var("RATTLE_LIB_DIR") {
        println!("cargo::rustc-link-search=native={kit}");
        println!("cargo::rustc-link-lib=static=os_c");
        println!("cargo::rustc-link-lib=static=libc_c");
    }
}
