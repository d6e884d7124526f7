//! Tells where the static library is: in PORT_LIB, or where ../../tools/library puts it.

fn main() {
    println!("cargo:rerun-if-env-changed=PORT_LIB");
    let package = std::env::var("CARGO_MANIFEST_DIR").expect("cargo tells the package's folder");
    let folder = std::env::var("PORT_LIB").unwrap_or(package + "/../../target/staticlib");
    println!("cargo:rerun-if-changed={folder}/libexports.a");
    println!("cargo:rustc-link-search=native={folder}");
}
