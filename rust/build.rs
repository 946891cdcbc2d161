//! Links the library that `./build c` makes at the top of the repository.

use std::path::Path;

fn main() {
    let folder = Path::new(env!("CARGO_MANIFEST_DIR")).join("../out/c");
    let archive = folder.join("libipcsh.a");
    println!("cargo::rerun-if-changed={}", archive.display());
    if archive.is_file() {
        println!("cargo::rustc-link-search=native={}", folder.display());
        println!("cargo::rustc-link-lib=static=ipcsh");
    } else {
        println!(
            "cargo::error=out/c/libipcsh.a isn't there: ./build c at the top of the repository makes it"
        );
    }
}
