//! Links the static libraries that `tools/build leaves javrenzu_calls` writes to target/staticlib of the repository.

fn main() {
    let top = std::path::Path::new(env!("CARGO_MANIFEST_DIR")).join("..").join("target/staticlib");
    println!("cargo:rustc-link-search=native={}", top.display());
    println!("cargo:rustc-link-lib=static=leaves");
    println!("cargo:rerun-if-changed={}", top.join("libleaves.a").display());
}
