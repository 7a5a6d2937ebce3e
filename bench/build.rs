//! Links the archives that `tools/build.sh` writes of `origins_c`, of `desk_c` and of `monitor_c`; or, where BENCH_BEFORE names their folder, a copy
//! of the last and beside it an earlier build whose symbols begin with `before_` (before.sh). And place.c, compiled by the C compiler.

use std::path::{Path, PathBuf};
use std::process::Command;

fn link(archive: &Path) {
    let folder = archive.parent().expect("an archive lies in a folder");
    let file = archive.file_stem().expect("an archive has a name");
    let name = file.to_string_lossy();
    println!("cargo:rustc-link-search=native={}", folder.display());
    println!("cargo:rustc-link-lib=static={}", &name["lib".len()..]);
    println!("cargo:rerun-if-changed={}", archive.display());
}

/// CC names another compiler than cc.
fn compile(source: &Path) {
    let folder = std::env::var_os("OUT_DIR").expect("cargo names a folder");
    let object = Path::new(&folder).join("place.o");
    let compiler = std::env::var("CC").unwrap_or("cc".into());
    let status = Command::new(compiler)
        .args(["-std=c99", "-O2", "-c"])
        .arg(source)
        .arg("-o")
        .arg(&object)
        .status();
    assert!(
        status.is_ok_and(|status| status.success()),
        "place.c compiles"
    );
    println!("cargo:rustc-link-arg={}", object.display());
    println!("cargo:rerun-if-changed={}", source.display());
    println!("cargo:rerun-if-env-changed=CC");
}

fn main() {
    println!("cargo:rerun-if-env-changed=BENCH_BEFORE");
    let here = Path::new(env!("CARGO_MANIFEST_DIR"));
    compile(&here.join("place.c"));
    link(&here.join("../target/staticlib/liborigins_c.a"));
    link(&here.join("../target/staticlib/libdesk_c.a"));
    let Some(folder) = std::env::var_os("BENCH_BEFORE").map(PathBuf::from) else {
        return link(&here.join("../target/staticlib/libmonitor_c.a"));
    };
    link(&folder.join("libmonitor_this.a"));
    link(&folder.join("libmonitor_before.a"));
    println!("cargo:rustc-cfg=before");
}
