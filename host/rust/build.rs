//! Links libkeeper.a and libauditor.a from the folder in KEEPER_LIB_DIR, or from the repository's target/staticlib, where `tools/build keeper
//! auditor` puts them.

use std::path::PathBuf;

fn main() {
    println!("cargo:rerun-if-env-changed=KEEPER_LIB_DIR");
    let folder = match std::env::var_os("KEEPER_LIB_DIR") {
        Some(folder) => PathBuf::from(folder),
        None => PathBuf::from(std::env::var_os("CARGO_MANIFEST_DIR").expect("cargo sets it")).join("../../target/staticlib"),
    };
    for name in ["keeper", "auditor"] {
        let library = match folder.join(format!("lib{name}.a")).canonicalize() {
            Ok(library) => library,
            Err(error) => {
                eprintln!("{}/lib{name}.a: {error}; set KEEPER_LIB_DIR to the folder of libkeeper.a and libauditor.a", folder.display());
                std::process::exit(1);
            }
        };
        let folder = library.parent().expect("a file stands in a folder");
        println!("cargo:rerun-if-changed={}", library.display());
        println!("cargo:rustc-link-search=native={}", folder.display());
        println!("cargo:rustc-link-lib=static={name}");
    }
}
