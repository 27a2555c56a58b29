//! Links libkeeper.a and libauditor.a from the folder that KEEPER_LIB_DIR names.

fn main() {
    println!("cargo:rerun-if-env-changed=KEEPER_LIB_DIR");
    let folder =
        std::env::var("KEEPER_LIB_DIR").expect("KEEPER_LIB_DIR names the folder with libkeeper.a and libauditor.a; host/bench/run sets it");
    println!("cargo:rustc-link-search=native={folder}");
    for name in ["keeper", "auditor"] {
        println!("cargo:rerun-if-changed={folder}/lib{name}.a");
        println!("cargo:rustc-link-lib=static={name}");
    }
}
