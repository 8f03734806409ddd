//! Links the library: from DONZIBRAU_LIB_DIR, from the checkout this crate stands in, or from where `pkg-config donzibrau` says, in this order.
use std::{env, path::Path, process::Command};

fn main() {
    println!("cargo:rerun-if-env-changed=DONZIBRAU_LIB_DIR");
    println!("cargo:rerun-if-env-changed=PKG_CONFIG_PATH");
    let checkout = Path::new(env!("CARGO_MANIFEST_DIR")).join("../../target/staticlib");
    if let Ok(folder) = env::var("DONZIBRAU_LIB_DIR") {
        link(&folder, "donzibrau");
    } else if checkout.join("libcapi.a").exists() {
        link(&checkout.display().to_string(), "static=capi");
        println!("cargo:rerun-if-changed={}", checkout.join("libcapi.a").display());
    } else if let Some(folder) = installed() {
        link(&folder, "donzibrau");
    } else {
        panic!("libdonzibrau is not found: run `make` in the checkout, or install it, or set DONZIBRAU_LIB_DIR");
    }
}

fn link(folder: &str, library: &str) {
    println!("cargo:rustc-link-search=native={folder}");
    println!("cargo:rustc-link-lib={library}");
}

fn installed() -> Option<String> {
    let told = Command::new("pkg-config").args(["--variable=libdir", "donzibrau"]).output().ok()?;
    let folder = String::from_utf8(told.stdout).ok()?.trim().to_string();
    (told.status.success() && !folder.is_empty()).then_some(folder)
}
