//! Links the proved library, which `bin/library` writes to `target/staticlib`.

fn main() {
    let here = std::env::var("CARGO_MANIFEST_DIR").expect("cargo names the folder of the package");
    let folder = format!("{here}/../target/staticlib");
    let library = format!("{folder}/libkepolas.a");
    println!("cargo:rerun-if-changed={library}");
    assert!(std::path::Path::new(&library).exists(), "{library} is missing: run `bin/library` first");
    println!("cargo:rustc-link-search=native={folder}");
    println!("cargo:rustc-link-lib=static=kepolas");
}
