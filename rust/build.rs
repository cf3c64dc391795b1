//! Links the proved library, libmwb.a: from the folder that MWB_LIB names, or else from where `./mwb library` puts it.

use std::env;
use std::path::{Path, PathBuf};

fn main() {
    let folder = match env::var_os("MWB_LIB") {
        Some(named) => PathBuf::from(named),
        None => Path::new(&env::var_os("CARGO_MANIFEST_DIR").expect("cargo names the package's folder")).join("../target/lib"),
    };
    println!("cargo:rerun-if-env-changed=MWB_LIB");
    println!("cargo:rerun-if-changed={}", folder.join("libmwb.a").display());
    println!("cargo:rustc-link-search=native={}", folder.display());
    println!("cargo:rustc-link-lib=static=mwb");
}
