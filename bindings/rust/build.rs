//! Links the archive that `bindings/archive` writes, or the one in the folder that KORSEPAL_LIB names.
use std::env;
use std::path::PathBuf;

fn main() {
    println!("cargo:rerun-if-env-changed=KORSEPAL_LIB");
    let folder = match env::var_os("KORSEPAL_LIB") {
        Some(folder) => PathBuf::from(folder),
        None => PathBuf::from(env::var_os("CARGO_MANIFEST_DIR").expect("cargo sets the folder of the crate"))
            .join("../../target/korsepal"),
    };
    let archive = folder.join("libkorsepal.a");
    if !archive.is_file() {
        eprintln!("{} is missing: run bindings/archive first, or set KORSEPAL_LIB to its folder", archive.display());
        std::process::exit(1);
    }
    println!("cargo:rerun-if-changed={}", archive.display());
    println!("cargo:rustc-link-search=native={}", folder.display());
    println!("cargo:rustc-link-lib=static=korsepal");
}
