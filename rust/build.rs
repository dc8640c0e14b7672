//! Finds the proved library, `liblast.a`, in the folder that LAST_LIB names or where `bench/native` puts it.
use std::env;
use std::path::PathBuf;

fn main() {
    println!("cargo:rerun-if-env-changed=LAST_LIB");
    let here = PathBuf::from(env::var_os("CARGO_MANIFEST_DIR").expect("cargo names the folder"));
    let folder = env::var_os("LAST_LIB").map_or(here.join("../target/native"), PathBuf::from);
    let library = folder.join("liblast.a");
    println!("cargo:rerun-if-changed={}", library.display());
    if !library.exists() {
        panic!("liblast.a is missing: run bench/native, or set LAST_LIB to its folder");
    }
    println!("cargo:rustc-link-search=native={}", folder.display());
    println!("cargo:rustc-link-lib=static=last");
}
