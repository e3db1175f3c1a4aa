//! Names the engine by a fingerprint of its library: what one engine has left must not be shown as another's.

fn main() {
    let engine = std::env::var("DEP_ABI_ENGINE").expect("the build script of ttda sets it");
    println!("cargo:rustc-env=ENGINE={engine}");
}
