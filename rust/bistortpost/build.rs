//! Links the library that `./mqtt5 lib` installed, the one of the package that this stands in, or that of the folder that
//! BISTORTPOST_LIB names.

use std::path::PathBuf;

fn main() {
    println!("cargo:rerun-if-env-changed=BISTORTPOST_LIB");
    let here = PathBuf::from(std::env::var("CARGO_MANIFEST_DIR").expect("cargo sets it"));
    let places = match std::env::var("BISTORTPOST_LIB") {
        Ok(folder) => vec![PathBuf::from(folder)],
        Err(_) => vec![here.join("../../out/lib"), here.join("../../lib")],
    };
    let Some(folder) = places.iter().find(|folder| folder.join("libmqtt5_c.a").is_file()) else {
        panic!("no libmqtt5_c.a in {places:?}: ./mqtt5 lib builds it, or name its folder in BISTORTPOST_LIB");
    };
    println!("cargo:rustc-link-search=native={}", folder.display());
    println!("cargo:rustc-link-lib=static=mqtt5_c");
}
