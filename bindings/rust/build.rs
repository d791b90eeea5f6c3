//! Finds the C library, and tells the linker.
//!
//! The library is `libglobset.a` in the directory that the environment variable `GLOBSET_LIB_DIR` names, or else in `lib` beside
//! `Cargo.toml`, where a release has it, or in `../out`, where `bindings/build` of the repository puts it.

use std::{env, fs, path::Path, path::PathBuf, process};

/// The number of the interface that `src/ffi.rs` declares.
const INTERFACE: &str = "1";

fn main() {
    println!("cargo:rerun-if-changed=build.rs");
    println!("cargo:rerun-if-env-changed=GLOBSET_LIB_DIR");
    let folder = folder();
    let (library, header) = (folder.join("libglobset.a"), folder.join("globset.h"));
    println!("cargo:rerun-if-changed={}", library.display());
    println!("cargo:rerun-if-changed={}", header.display());
    if !library.is_file() {
        fail(&format!(
            "there is no file {}. Run the command bindings/build in a clone of the repository, or set GLOBSET_LIB_DIR to the \
             directory that has libglobset.a, or take the crate of a release, which has it.",
            library.display()
        ));
    }
    check_interface(&header);
    println!("cargo:rustc-link-search=native={}", folder.display());
    println!("cargo:rustc-link-lib=static=globset");
}

/// The directory that should have the library. A relative path in `GLOBSET_LIB_DIR` begins in the directory of this crate.
fn folder() -> PathBuf {
    let manifest = PathBuf::from(env::var_os("CARGO_MANIFEST_DIR").expect("cargo sets CARGO_MANIFEST_DIR"));
    match env::var_os("GLOBSET_LIB_DIR") {
        Some(folder) if !folder.is_empty() => manifest.join(folder),
        _ => {
            let (inside, built) = (manifest.join("lib"), manifest.join("../out"));
            if !inside.join("libglobset.a").is_file() && built.join("libglobset.a").is_file() {
                built
            } else {
                inside
            }
        }
    }
}

/// Ends the build if the header beside the library is of another interface, and warns if there is none.
fn check_interface(header: &Path) {
    let Ok(text) = fs::read_to_string(header) else {
        println!("cargo:warning={} is not there, so it is not known whether the library fits", header.display());
        return;
    };
    let number = text.lines().find_map(|line| line.strip_prefix("#define GLOBSET_INTERFACE ")).map(str::trim);
    if number != Some(INTERFACE) {
        fail(&format!(
            "{} has the interface {}, and this crate is for the interface {INTERFACE}.",
            header.display(),
            number.unwrap_or("that it does not tell")
        ));
    }
}

fn fail(text: &str) -> ! {
    eprintln!("globset: {text}");
    process::exit(1)
}
