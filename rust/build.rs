//! Links the proved library, which `rust/library` writes.

use std::env;
use std::path::PathBuf;

/// Names another folder that holds the library.
const FOLDER: &str = "MAHUIXEN_LIBRARY";

fn folder() -> PathBuf {
    let package = PathBuf::from(env::var_os("CARGO_MANIFEST_DIR").expect("set by cargo"));
    env::var_os(FOLDER).map_or_else(|| package.join("../target/staticlib"), PathBuf::from)
}

fn main() {
    let folder = folder();
    let library = folder.join("libmahuixen.a");
    println!("cargo::rerun-if-env-changed={FOLDER}");
    println!("cargo::rerun-if-changed={}", library.display());
    println!("cargo::rustc-link-search=native={}", folder.display());
    println!("cargo::rustc-link-lib=static=mahuixen");
    // A warning and no error, since `cargo check` and `cargo doc` do without it.
    if !library.is_file() {
        let library = library.display();
        println!("cargo::warning=there is no {library}, and nothing that runs can be built");
        println!("cargo::warning=write it with: rust/library (in the repository's top folder)");
    }
}
