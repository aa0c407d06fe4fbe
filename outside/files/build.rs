//! Links target/staticlib/libfile_calls.a, which `outside/library file_calls` writes.

fn main() {
    let folder = format!("{}/../../target/staticlib", std::env::var("CARGO_MANIFEST_DIR").unwrap());
    println!("cargo:rerun-if-changed={folder}/libfile_calls.a");
    println!("cargo:rustc-link-search=native={folder}");
    println!("cargo:rustc-link-lib=static=file_calls");
}
