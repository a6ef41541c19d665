//! Links the proved operations, libhost.a: from SILLURWY_LIB_DIR, else from target/staticlib of the
//! repository.

use std::env;
use std::path::PathBuf;

fn main() {
    let dir = match env::var_os("SILLURWY_LIB_DIR") {
        Some(dir) => PathBuf::from(dir),
        None => PathBuf::from(env!("CARGO_MANIFEST_DIR")).join("../target/staticlib"),
    };
    let library = dir.join("libhost.a");
    println!("cargo::rerun-if-env-changed=SILLURWY_LIB_DIR");
    println!("cargo::rerun-if-changed={}", library.display());
    if library.is_file() {
        println!("cargo::rustc-link-search=native={}", dir.display());
        println!("cargo::rustc-link-lib=static=host");
    } else {
        println!(
            "cargo::error={} is missing: run `dev/built host_c` in the repository, \
             or set SILLURWY_LIB_DIR to the directory that holds libhost.a",
            library.display()
        );
    }
}
