//! Links the archive that `tools/build.sh origins_c` writes, once it is there; without it the tests say so.

use std::path::Path;

fn main() {
    let folder = Path::new(env!("CARGO_MANIFEST_DIR")).join("../target/staticlib");
    let archive = folder.join("liborigins_c.a");
    println!("cargo:rustc-check-cfg=cfg(library)");
    println!("cargo:rerun-if-changed={}", archive.display());
    if archive.is_file() {
        println!("cargo:rustc-cfg=library");
        println!("cargo:rustc-link-search=native={}", folder.display());
        println!("cargo:rustc-link-lib=static=origins_c");
    }
}
