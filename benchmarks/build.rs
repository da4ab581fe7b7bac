//! Links the proved libraries, which `run` has the toolchain write and puts into one folder.

use std::env;
use std::path::PathBuf;

fn main() {
    let here = PathBuf::from(env::var("CARGO_MANIFEST_DIR").expect("cargo sets it"));
    let folder = here.join("../target/staticlib");
    println!("cargo::rustc-link-search=native={}", folder.display());
    for library in ["bench_lent", "bench_value", "bench_translate", "bench_calls"] {
        let file = folder.join(format!("lib{library}.a"));
        println!("cargo::rerun-if-changed={}", file.display());
        println!("cargo::rustc-link-lib=static={library}");
    }
}
