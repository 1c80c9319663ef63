//! Links the C library `routes`: the archive or the shared library in the folder that `ROUTES_LIB`
//! names, else the shared library that the linker finds.

use std::env;
use std::path::Path;

fn main() {
    println!("cargo:rerun-if-env-changed=ROUTES_LIB");
    let mut kind = "dylib";
    if let Some(folder) = env::var("ROUTES_LIB").ok().filter(|it| !it.is_empty()) {
        let at = Path::new(&folder);
        let archive = at.join("libroutes.a");
        if at.is_absolute() && archive.exists() {
            println!("cargo:rerun-if-changed={}", archive.display());
            kind = "static";
        } else if !at.is_absolute() || !at.join("libroutes.so").exists() {
            panic!("ROUTES_LIB must be the full path of a folder with libroutes.a or libroutes.so, not {folder:?}");
        }
        println!("cargo:rustc-link-search=native={folder}");
    }
    println!("cargo:rustc-link-lib={kind}=routes");
}
