//! Links the proved library: the folder of libhost.a, and of libcalls.a, which the sources name where they declare its calls, is target/staticlib
//! of the repository, or VALGRIST_LIB. An earlier build, libbefore_host.a and libbefore_calls.a, lies in the folder VALGRIST_BEFORE.
use std::env;
use std::path::PathBuf;

fn main() {
    println!("cargo:rerun-if-env-changed=VALGRIST_LIB");
    let folder = match env::var_os("VALGRIST_LIB") {
        Some(folder) => PathBuf::from(folder),
        None => PathBuf::from(env::var_os("CARGO_MANIFEST_DIR").expect("cargo names the package's folder")).join("../target/staticlib"),
    };
    for library in ["libhost.a", "libcalls.a"] {
        println!("cargo:rerun-if-changed={}", folder.join(library).display());
    }
    println!("cargo:rustc-link-search=native={}", folder.display());
    println!("cargo:rustc-link-lib=static=host");
    if env::var_os("CARGO_FEATURE_BEFORE").is_some() {
        let folder = env::var("VALGRIST_BEFORE").expect("the folder of libbefore_host.a and libbefore_calls.a");
        println!("cargo:rerun-if-env-changed=VALGRIST_BEFORE");
        println!("cargo:rerun-if-changed={folder}/libbefore_host.a\ncargo:rerun-if-changed={folder}/libbefore_calls.a");
        println!("cargo:rustc-link-search=native={folder}");
    }
}
