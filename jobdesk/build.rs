//! Links the static library of the proved code, and never one that is older than the crates.

use std::env;
use std::path::PathBuf;
use std::process::Command;

fn main() {
    println!("cargo:rerun-if-env-changed=CAPI_DIR");
    let package = PathBuf::from(env::var_os("CARGO_MANIFEST_DIR").expect("cargo gives a folder"));
    let folder = match env::var_os("CAPI_DIR") {
        // A library that the caller answers for.
        Some(given) => PathBuf::from(given),
        None => {
            for input in ["library", "../crates", "../crates.txt", "../target/staticlib"] {
                println!("cargo:rerun-if-changed={}", package.join(input).display());
            }
            let checked = Command::new(package.join("library")).arg("check").status();
            assert!(
                checked.is_ok_and(|status| status.success()),
                "no libcapi.a of the crates as they are: make it with jobdesk/library"
            );
            package.join("../target/staticlib")
        }
    };
    println!("cargo:rerun-if-changed={}", folder.join("libcapi.a").display());
    println!("cargo:rustc-link-search=native={}", folder.display());
    println!("cargo:rustc-link-lib=static=capi");
}
