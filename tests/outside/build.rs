//! Links the archive of the line program into the test programs. PLOT_HUB_ARCHIVE names another archive than the built one.

use std::path::PathBuf;

fn main() {
    let built = PathBuf::from(std::env::var_os("CARGO_MANIFEST_DIR").unwrap()).join("../../target/staticlib/libline.a");
    let archive = std::env::var_os("PLOT_HUB_ARCHIVE").map_or(built, PathBuf::from);
    println!("cargo:rerun-if-env-changed=PLOT_HUB_ARCHIVE");
    println!("cargo:rerun-if-changed={}", archive.display());
    let archive = archive.canonicalize().unwrap_or_else(|problem| {
        panic!("no archive {}: {problem}; `tools/build archive` builds it, from the root", archive.display())
    });
    println!("cargo:rustc-link-arg-bins={}", archive.display());
}
