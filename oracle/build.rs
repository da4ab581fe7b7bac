//! Writes `modules.rs` into OUT_DIR: one `pub mod` line for each upstream file of the crate being
//! built, with the path of the file as it stands in the folder of upstream sources. The file itself
//! is compiled unchanged and never copied.
//!
//! The folder is the environment variable ZMIDI_SRC, by default `../shared/docs/src`. A relative
//! path is taken from the project's root, the parent of `oracle/`.

use std::env;
use std::fs;
use std::path::{Path, PathBuf};

/// The upstream folder of a crate, and its modules.
fn modules(package: &str) -> (&'static str, &'static [&'static str]) {
    match package {
        "zmidi_ump" => (
            "crates/zmidi-ump/src",
            &[
                "packet",
                "channel_voice1",
                "channel_voice2",
                "controller",
                "scale",
                "translate",
            ],
        ),
        "zmidi_io" => ("crates/zmidi-io/src", &["parameters", "mpe"]),
        other => panic!("no upstream modules are named for {other}"),
    }
}

/// The folder of upstream sources.
fn upstream() -> PathBuf {
    let package = PathBuf::from(env::var("CARGO_MANIFEST_DIR").expect("cargo sets it"));
    let given = env::var("ZMIDI_SRC").unwrap_or_else(|_| "../shared/docs/src".into());
    let folder = package.join("../..").join(given);
    fs::canonicalize(&folder).unwrap_or_else(|_| {
        panic!(
            "there are no upstream sources in {}; set ZMIDI_SRC",
            folder.display()
        )
    })
}

/// The line that declares one upstream file as a module.
fn module_line(file: &Path, name: &str) -> String {
    assert!(file.is_file(), "{} is missing", file.display());
    format!("#[allow(dead_code)]\n#[path = {file:?}]\npub mod {name};\n")
}

fn main() {
    println!("cargo::rerun-if-env-changed=ZMIDI_SRC");
    let package = env::var("CARGO_PKG_NAME").expect("cargo sets it");
    let (folder, names) = modules(&package);
    let folder = upstream().join(folder);
    let mut lines = String::new();
    for name in names {
        let file = folder.join(format!("{name}.rs"));
        println!("cargo::rerun-if-changed={}", file.display());
        lines += &module_line(&file, name);
    }
    let out = PathBuf::from(env::var("OUT_DIR").expect("cargo sets it"));
    fs::write(out.join("modules.rs"), lines).expect("OUT_DIR can be written");
}
