//! Links the archive that `make -C c install` puts into a folder: ENVY_LIB_DIR, or else /usr/local/lib.
use std::env;

fn main() {
    println!("cargo:rerun-if-env-changed=ENVY_LIB_DIR");
    let folder = env::var("ENVY_LIB_DIR").unwrap_or_else(|_| "/usr/local/lib".to_string());
    println!("cargo:rustc-link-search=native={folder}");
    println!("cargo:rustc-link-lib=static=envy");
}
