//! Links the archive of the library, from PATCH_BOX_ARCHIVE_DIR or from where `tools/build archive` puts it.

use std::env;
use std::path::PathBuf;

fn main() {
    println!("cargo:rerun-if-env-changed=PATCH_BOX_ARCHIVE_DIR");
    let folder = env::var_os("PATCH_BOX_ARCHIVE_DIR").map_or_else(
        || {
            let hosts = env::var_os("CARGO_MANIFEST_DIR").expect("cargo sets CARGO_MANIFEST_DIR");
            PathBuf::from(hosts).join("../target/staticlib")
        },
        PathBuf::from,
    );
    let archive = folder.join("libexports.a");
    println!("cargo:rerun-if-changed={}", archive.display());
    if !archive.exists() {
        panic!("{} is missing: run `tools/build archive` first", archive.display());
    }
    println!("cargo:rustc-link-search=native={}", folder.display());
    println!("cargo:rustc-link-lib=static=exports");
}
