//! Links libkernel.a, from HORN_LIBRARY or from where `.ci/library kernel` writes it.
fn main() {
    let own = std::env::var("CARGO_MANIFEST_DIR").expect("cargo sets it");
    let library = std::env::var("HORN_LIBRARY").unwrap_or(format!("{own}/../../target/staticlib"));
    println!("cargo:rustc-link-search=native={library}");
    println!("cargo:rustc-link-lib=static=kernel");
    println!("cargo:rerun-if-changed={library}/libkernel.a");
    println!("cargo:rerun-if-env-changed=HORN_LIBRARY");
}
