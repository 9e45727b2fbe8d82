//! Links the library, build/libpegplanet.a, which `make lib` writes.

use std::path::Path;

/// From this folder, in which cargo runs the script and the compiler.
const BUILD: &str = "../../build";

fn main() {
    let library = format!("{BUILD}/libpegplanet.a");
    println!("cargo:rerun-if-changed={library}");
    if !Path::new(&library).is_file() {
        eprintln!("build/libpegplanet.a is missing: run `make lib` first");
        std::process::exit(1);
    }
    println!("cargo:rustc-link-search=native={BUILD}");
    println!("cargo:rustc-link-lib=static=pegplanet");
}
