//! Says where the compiled library's archive is. HARPGINGER_ARCHIVE names the folder that holds
//! libharpginger.a, from this package's folder or absolute; without it the comparison is built without
//! the compiled library.

use std::{env, fs};

fn main() {
    println!("cargo::rustc-check-cfg=cfg(harpginger_archive)");
    println!("cargo::rerun-if-env-changed=HARPGINGER_ARCHIVE");
    println!("cargo::rerun-if-changed=build.rs");
    let Ok(folder) = env::var("HARPGINGER_ARCHIVE") else {
        return;
    };
    let Ok(folder) = fs::canonicalize(&folder) else {
        panic!("HARPGINGER_ARCHIVE names no folder: {folder}");
    };
    let folder = folder.display();
    println!("cargo::rerun-if-changed={folder}/libharpginger.a");
    println!("cargo::rustc-link-search=native={folder}");
    println!("cargo::rustc-cfg=harpginger_archive");
}
