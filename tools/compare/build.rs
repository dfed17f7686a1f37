//! With the feature `office`, links the static library: from the folder in OFFICE_LIB, or else from the crate's out/.
use std::env;
use std::path::PathBuf;

fn main() {
    println!("cargo:rerun-if-changed=build.rs");
    println!("cargo:rerun-if-env-changed=OFFICE_LIB");
    if env::var_os("CARGO_FEATURE_OFFICE").is_none() {
        return;
    }
    let here = PathBuf::from(env::var_os("CARGO_MANIFEST_DIR").expect("cargo says where the crate is"));
    let folder = env::var_os("OFFICE_LIB").map_or(here.join("../../crates/office/out"), PathBuf::from);
    println!("cargo:rerun-if-changed={}", folder.join("liboffice.a").display());
    println!("cargo:rustc-link-search=native={}", folder.display());
    println!("cargo:rustc-link-lib=static=office");
}
