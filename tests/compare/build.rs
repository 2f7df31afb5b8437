//! Links the engine as `make engine` leaves it, and to the tests the library for C.

fn main() {
    let root = std::env::var("CARGO_MANIFEST_DIR").unwrap();
    let folder = format!("{root}/../../target/staticlib");
    println!("cargo:rustc-link-search=native={folder}");
    println!("cargo:rustc-link-lib=static=entries");
    println!("cargo:rustc-link-arg-tests={folder}/libsternquast.a");
    println!("cargo:rerun-if-changed={folder}/libentries.a");
    println!("cargo:rerun-if-changed={folder}/libsternquast.a");
}
