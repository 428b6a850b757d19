// Finds the library: in the folder that PELSHAQU_LIB_DIR names; else in target/staticlib of the repository, where `make` writes
// it; else where pkg-config says that it is installed.
use std::path::{Path, PathBuf};
use std::process::Command;

const ARCHIVE: &str = "libpelshaqu.a";

fn main() {
    println!("cargo:rerun-if-env-changed=PELSHAQU_LIB_DIR");
    println!("cargo:rerun-if-changed=build.rs");
    let own = Path::new(&std::env::var("CARGO_MANIFEST_DIR").unwrap()).join("../../target/staticlib");
    match std::env::var("PELSHAQU_LIB_DIR") {
        Ok(folder) => link(&PathBuf::from(folder)),
        Err(_) if own.join(ARCHIVE).is_file() => link(&own),
        Err(_) => installed(),
    }
}

/// The archive of a folder.
fn link(folder: &Path) {
    let archive = folder.join(ARCHIVE);
    assert!(archive.is_file(), "no {}", archive.display());
    println!("cargo:rerun-if-changed={}", archive.display());
    println!("cargo:rustc-link-search=native={}", folder.display());
    println!("cargo:rustc-link-lib=static=pelshaqu");
}

/// The installed library, by pkg-config. It names no folder where the linker looks by itself.
fn installed() {
    let found = Command::new("pkg-config").args(["--libs-only-L", "pelshaqu"]).output();
    let words = match found {
        Ok(output) if output.status.success() => String::from_utf8_lossy(&output.stdout).into_owned(),
        _ => panic!("no library: run 'make', install it, or set PELSHAQU_LIB_DIR"),
    };
    for folder in words.split_whitespace().filter_map(|word| word.strip_prefix("-L")) {
        println!("cargo:rustc-link-search=native={folder}");
    }
    println!("cargo:rustc-link-lib=pelshaqu");
}
