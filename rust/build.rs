//! Links the proved library: the archive that `./build` makes, with its levels and the dispatcher.

use std::path::Path;
use std::process::exit;

fn main() {
    let directory = Path::new(env!("CARGO_MANIFEST_DIR")).join("../target/lib");
    let archive = directory.join("libtaldrimsu.a");
    println!("cargo:rerun-if-changed={}", archive.display());
    if !archive.is_file() {
        eprintln!("run './build' first");
        exit(1);
    }
    println!("cargo:rustc-link-search=native={}", directory.display());
    println!("cargo:rustc-link-lib=static=taldrimsu");
}
