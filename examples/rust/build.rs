//! Links `libpellacrosta.a`: from the folder that PELLACROSTA_LIB_DIR names, else from this repository's `target/staticlib`.

use std::{env, path::Path};

const FOLDER: &str = "PELLACROSTA_LIB_DIR";

fn main() {
    let here = env::var_os("CARGO_MANIFEST_DIR").expect("cargo names the crate's folder");
    let named = env::var_os(FOLDER).unwrap_or("../../target/staticlib".into());
    // Absolute, since the linker is started elsewhere.
    let folder = Path::new(&here).join(named);
    let archive = folder.join("libpellacrosta.a");
    println!("cargo::rerun-if-env-changed={FOLDER}");
    println!("cargo::rerun-if-changed={}", archive.display());
    if archive.is_file() {
        println!("cargo::rustc-link-search=native={}", folder.display());
        println!("cargo::rustc-link-lib=static=pellacrosta");
    } else {
        println!("cargo::error={} isn't there: run `make lib`, or let {FOLDER} name its folder", archive.display());
    }
}
