//! Links the archive that `tools/build capi` puts there.
use std::path::Path;

fn main() {
    let archive = Path::new(env!("CARGO_MANIFEST_DIR")).join("../target/staticlib");
    println!("cargo:rustc-link-search=native={}", archive.display());
    println!("cargo:rustc-link-lib=static=capi");
    println!("cargo:rerun-if-changed={}", archive.join("libcapi.a").display());
}
