//! Finds libfustrevol.a: in the folder that FUSTREVOL_LIB_DIR names, or where `make` in `c/` builds it.
use std::env;
use std::path::PathBuf;

fn main() {
    println!("cargo:rerun-if-env-changed=FUSTREVOL_LIB_DIR");
    let folder = env::var_os("FUSTREVOL_LIB_DIR").map_or_else(
        || PathBuf::from(env::var_os("CARGO_MANIFEST_DIR").unwrap()).join("../../c/build"),
        PathBuf::from,
    );
    let library = folder.join("libfustrevol.a");
    assert!(
        library.exists(),
        "there is no {}: run `make` in the folder c, or set FUSTREVOL_LIB_DIR",
        library.display()
    );
    println!("cargo:rerun-if-changed={}", library.display());
    println!("cargo:rustc-link-search=native={}", folder.display());
    println!("cargo:rustc-link-lib=static=fustrevol");
}
