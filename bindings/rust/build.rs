//! Links libabi.a, the proved engine, which `tools/library` makes. TTDA_LIB names its folder (an absolute path; the
//! default is target/staticlib in the project's root), and TTDA_LINK names further system libraries that it needs, parted
//! by spaces (for example "m pthread").

use std::env;
use std::fs;
use std::path::PathBuf;

fn main() {
    println!("cargo:rerun-if-env-changed=TTDA_LIB");
    println!("cargo:rerun-if-env-changed=TTDA_LINK");
    let here = PathBuf::from(env::var_os("CARGO_MANIFEST_DIR").expect("cargo sets it"));
    let folder = match env::var_os("TTDA_LIB") {
        Some(folder) => PathBuf::from(folder),
        None => here.join("../../target/staticlib"),
    };
    let library = folder.join("libabi.a");
    println!("cargo:rerun-if-changed={}", library.display());
    let bytes = fs::read(&library).unwrap_or_else(|error| {
        let path = library.display();
        panic!("{path}: {error}; `tools/library` makes it, or TTDA_LIB names its folder")
    });
    // For the build scripts of whoever depends on this crate, as DEP_ABI_ENGINE.
    println!("cargo:engine={:016x}", fingerprint(&bytes));
    println!("cargo:rustc-link-search=native={}", folder.display());
    println!("cargo:rustc-link-lib=static=abi");
    for name in env::var("TTDA_LINK").unwrap_or_default().split_whitespace() {
        println!("cargo:rustc-link-lib={name}");
    }
}

/// FNV-1a in 64 bits.
fn fingerprint(bytes: &[u8]) -> u64 {
    bytes.iter().fold(0xcbf2_9ce4_8422_2325, |hash, byte| {
        (hash ^ u64::from(*byte)).wrapping_mul(0x0100_0000_01b3)
    })
}
