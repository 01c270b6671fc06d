//! Says how the proved library is linked.

use std::env;
use std::path::Path;

/// Where the proved library lies, unless the environment says otherwise; relative to this package.
const DEFAULT_DIRECTORY: &str = "../crates/wuzlevor/out";

fn main() {
    println!("cargo:rerun-if-changed=build.rs");
    println!("cargo:rerun-if-env-changed=WUZLEVOR_LIB");
    let package = env::var("CARGO_MANIFEST_DIR").expect("cargo names the package's directory");
    let directory = env::var("WUZLEVOR_LIB").unwrap_or_else(|_| DEFAULT_DIRECTORY.to_string());
    let directory = Path::new(&package).join(directory);
    let archive = directory.join("libwuzlevor.a");
    println!("cargo:rerun-if-changed={}", archive.display());
    println!("cargo:rustc-link-search=native={}", directory.display());
    println!("cargo:rustc-link-lib=static=wuzlevor");
}
