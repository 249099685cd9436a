//! Links libxml2. `bin/bench` says which package has it where it is missing.

fn main() {
    println!("cargo:rustc-link-lib=dylib=xml2");
}
