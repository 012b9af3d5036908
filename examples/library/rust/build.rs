//! Links the merged archive in the folder that the variable `HOMOTOPY_LIBRARIES` names, or else the shared library of the system.
use std::env;

fn main() {
    println!("cargo:rerun-if-env-changed=HOMOTOPY_LIBRARIES");
    match env::var("HOMOTOPY_LIBRARIES") {
        Ok(folder) => {
            println!("cargo:rerun-if-changed={folder}/libhomotopy.a");
            println!("cargo:rustc-link-search=native={folder}");
            println!("cargo:rustc-link-lib=static=homotopy");
        }
        Err(_) => println!("cargo:rustc-link-lib=homotopy"),
    }
}
