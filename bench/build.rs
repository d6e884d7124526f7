//! Tells where the port's static library is: in PORT_LIB.

fn main() {
    println!("cargo:rerun-if-env-changed=PORT_LIB");
    if let Ok(folder) = std::env::var("PORT_LIB") {
        println!("cargo:rerun-if-changed={folder}/libexports.a");
        println!("cargo:rustc-link-search=native={folder}");
    }
}
