//! Links `libcapi.a` from the folder that `STRETERVA_LIB` names, by default `target/staticlib` of the repository.

use std::env;
use std::path::Path;

fn main() {
    println!("cargo::rerun-if-env-changed=STRETERVA_LIB");
    let here = Path::new(env!("CARGO_MANIFEST_DIR"));
    let folder = match env::var_os("STRETERVA_LIB") {
        Some(folder) => here.join(folder),
        None => here.join("../../target/staticlib"),
    };
    let library = folder.join("libcapi.a");
    println!("cargo::rerun-if-changed={}", library.display());
    if !library.is_file() {
        println!(
            "cargo::error=no {}: 'tools/build capi' writes it, or STRETERVA_LIB names its folder",
            library.display()
        );
        return;
    }
    println!("cargo::rustc-link-search=native={}", folder.display());
    println!("cargo::rustc-link-lib=static=capi");
}
