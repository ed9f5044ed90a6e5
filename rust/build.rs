//! Finds the static library that the repository builds.
use std::path::PathBuf;

fn main() {
    let repository = PathBuf::from(std::env::var("CARGO_MANIFEST_DIR").unwrap()).join("..");
    let folder = repository.join("target").join("staticlib");
    let library = folder.join("libpost_guard.a");
    println!("cargo:rerun-if-changed={}", library.display());
    if !library.exists() {
        eprintln!(
            "post-guard: {} is not there.\n\
             Build it first: run `tools/library` at the top of the repository, {}.",
            library.display(),
            repository.canonicalize().unwrap_or(repository).display()
        );
        std::process::exit(1);
    }
    println!("cargo:rustc-link-search=native={}", folder.display());
    println!("cargo:rustc-link-lib=static=post_guard");
}
