//! Links clang's fuzzer, whose archive FUZZER_LIB names, and the C++ library that it needs.

fn main() {
    println!("cargo:rerun-if-env-changed=FUZZER_LIB");
    if let Ok(archive) = std::env::var("FUZZER_LIB") {
        println!("cargo:rustc-link-arg={archive}");
        println!("cargo:rustc-link-arg=-lstdc++");
    }
}
