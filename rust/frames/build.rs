// Links the proved static library.
use std::path::Path;

fn main() {
    let root = format!("{}/../..", std::env::var("CARGO_MANIFEST_DIR").unwrap());
    let library = format!("{root}/target/staticlib/libframes.a");
    println!("cargo:rerun-if-changed={library}");
    if !Path::new(&library).exists() {
        eprintln!("target/staticlib/libframes.a is missing: make it with `./build frames_c` (or ./build) in the project's folder");
        std::process::exit(1);
    }
    println!("cargo:rustc-link-search=native={root}/target/staticlib");
    println!("cargo:rustc-link-lib=static=frames");
}
