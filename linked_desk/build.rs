//! Links the archive that `tools/build.sh desk_c` writes.

use std::path::Path;

fn main() {
    let folder = Path::new(env!("CARGO_MANIFEST_DIR")).join("../target/staticlib");
    println!("cargo:rustc-link-search=native={}", folder.display());
    println!("cargo:rustc-link-lib=static=desk_c");
    println!(
        "cargo:rerun-if-changed={}",
        folder.join("libdesk_c.a").display()
    );
}
