//! With the feature `proved`: links `libport.a` from the folder that `PORT_LIB` names.

use std::env;
use std::path::Path;

const VARIABLE: &str = "PORT_LIB";
const DEFAULT_FOLDER: &str = "../crates/port/out";

fn main() {
    println!("cargo:rerun-if-changed=build.rs");
    println!("cargo:rerun-if-env-changed={VARIABLE}");
    if env::var_os("CARGO_FEATURE_PROVED").is_none() {
        return;
    }
    let named = env::var(VARIABLE).unwrap_or_else(|_| DEFAULT_FOLDER.to_string());
    // A relative folder counts from this package.
    let package = env::var("CARGO_MANIFEST_DIR").expect("cargo tells where the package is");
    let folder = Path::new(&package).join(named);
    let library = folder.join("libport.a");
    assert!(
        library.is_file(),
        "{} is not there: build the proved engine first, or set {VARIABLE} to its folder",
        library.display()
    );
    println!("cargo:rerun-if-changed={}", library.display());
    println!("cargo:rustc-link-search=native={}", folder.display());
    // Not bundled, since link-time optimisation of this package must leave the library as it is.
    println!("cargo:rustc-link-lib=static:-bundle=port");
}
