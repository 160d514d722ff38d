//! Links the static library that `tools/library` makes from the proved crates. Without it the crate can be checked and documented,
//! not built.
use std::env;
use std::path::Path;

/// The variable that names another folder for the archive; a relative one is taken from the folder of this crate.
const FOLDER: &str = "FAMDRIZE_LIB_DIR";

fn main() {
    let set = |name: &str| env::var(name).unwrap_or_else(|_| panic!("cargo sets {name}"));
    let here = set("CARGO_MANIFEST_DIR");
    let here = Path::new(&here);
    let folder = match env::var_os(FOLDER).filter(|named| !named.is_empty()) {
        Some(named) => here.join(named),
        // the root of the repository is two folders up
        None => here.join("../../target/staticlib"),
    };
    let archive = folder.join("libfamdrize.a");
    println!("cargo:rerun-if-env-changed={FOLDER}");
    println!("cargo:rerun-if-changed={}", archive.display());

    let target = set("TARGET");
    if set("CARGO_CFG_TARGET_ARCH") != "x86_64" || set("CARGO_CFG_TARGET_OS") != "linux" {
        println!(
            "cargo:warning=the library is made for x86-64 Linux, and this is {target}: \
             the crate can be checked and documented, not built"
        );
    }
    if !archive.exists() {
        println!(
            "cargo:warning={} is missing: the crate can be checked and documented, not built. \
             Make it with `tools/library` at the root of the repository, or name the folder that holds it in {FOLDER}",
            archive.display()
        );
    }
    println!("cargo:rustc-link-search=native={}", folder.display());
    println!("cargo:rustc-link-lib=static=famdrize");
}
