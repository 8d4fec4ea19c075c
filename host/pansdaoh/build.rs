//! Tells the linker where the static library lies: in the folder that
//! PANSDAOH_LIB names, else in the repository's crates/pansdaoh/out.

use std::env;
use std::path::{Path, PathBuf};

fn main() {
    println!("cargo::rerun-if-env-changed=PANSDAOH_LIB");
    let folder = match env::var_os("PANSDAOH_LIB") {
        Some(folder) => PathBuf::from(folder),
        None => Path::new(env!("CARGO_MANIFEST_DIR")).join("../../crates/pansdaoh/out"),
    };
    let library = folder.join("libpansdaoh.a");
    println!("cargo::rerun-if-changed={}", library.display());
    match folder.canonicalize() {
        Ok(folder) if library.is_file() => {
            println!("cargo::rustc-link-search=native={}", folder.display());
            println!("cargo::rustc-env=PANSDAOH_FOLDER={}", folder.display());
        }
        _ => println!(
            "cargo::error={} is missing: build it with `rt lib --cpu x86-64` in \
             crates/pansdaoh, or name its folder in PANSDAOH_LIB",
            library.display()
        ),
    }
}
