//! Links libp12.a from the folder in P12_LIB_DIR; without it from crates/p12/out of the repository, where `rt lib` in crates/p12 puts it.
use std::env;
use std::path::PathBuf;

fn main() {
    println!("cargo:rerun-if-env-changed=P12_LIB_DIR");
    let folder = match env::var_os("P12_LIB_DIR") {
        Some(folder) => PathBuf::from(folder),
        None => PathBuf::from(env::var_os("CARGO_MANIFEST_DIR").unwrap()).join("../../crates/p12/out"),
    };
    let library = folder.join("libp12.a");
    println!("cargo:rerun-if-changed={}", library.display());
    if !library.is_file() {
        panic!("there is no {}: run `rt lib` in crates/p12, or set P12_LIB_DIR", library.display());
    }
    println!("cargo:rustc-link-search=native={}", folder.display());
    println!("cargo:rustc-link-lib=static=p12");
}
