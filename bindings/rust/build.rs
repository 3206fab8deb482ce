//! Links the static library of `crates/arrow2_ffi`: that of a folder which a variable names, or of `lib` next to this
//! file.

use std::path::Path;

fn main() {
    let variable = "ARROW2_PROVED_LIBRARY";
    println!("cargo:rerun-if-env-changed={variable}");
    let own_folder = Path::new(&std::env::var("CARGO_MANIFEST_DIR").expect("Cargo sets it")).join("lib");
    let folder = std::env::var(variable).unwrap_or_else(|_| own_folder.display().to_string());
    let file = Path::new(&folder).join("libarrow2_ffi.a");
    assert!(file.is_file(), "no {}: {variable} is the folder of it, which bindings/run sets", file.display());
    println!("cargo:rerun-if-changed={}", file.display());
    println!("cargo:rustc-link-search=native={folder}");
    println!("cargo:rustc-link-lib=static=arrow2_ffi");
}
