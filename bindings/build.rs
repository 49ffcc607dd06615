//! Links the static library that `tools/build javrenzu_calls` writes to target/staticlib of the repository.

fn main() {
    let top = std::path::Path::new(env!("CARGO_MANIFEST_DIR")).join("..").join("target/staticlib");
    println!("cargo:rustc-link-search=native={}", top.display());
    println!("cargo:rustc-link-lib=static=javrenzu_calls");
    println!("cargo:rerun-if-changed={}", top.join("libjavrenzu_calls.a").display());
}
