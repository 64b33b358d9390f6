//! Where the archive is: GINDRAZOMA_LIB names its folder; without it, the place where `make` puts it.
use std::env;
use std::path::PathBuf;

fn main() {
    let here = PathBuf::from(env::var_os("CARGO_MANIFEST_DIR").unwrap());
    let folder = env::var_os("GINDRAZOMA_LIB").map_or(here.join("../../target/staticlib"), PathBuf::from);
    println!("cargo:rustc-link-search=native={}", folder.display());
    println!("cargo:rustc-link-lib=static:-bundle=gindrazoma");
    println!("cargo:rerun-if-env-changed=GINDRAZOMA_LIB");
    println!("cargo:rerun-if-changed={}", folder.join("libgindrazoma.a").display());
}
