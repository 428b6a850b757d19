// Links the library, target/staticlib/libpelshaqu.a of the repository. PLACEMENT, 0 to 3, moves every function on by so many times 16 bytes: where
// a loop lies in its 64 bytes changes a time by a tenth or more. For `bench/compare` it links libpair.a of the folder PAIR, which has two libraries.
use std::path::{Path, PathBuf};

fn main() {
    let here = std::env::var("CARGO_MANIFEST_DIR").unwrap();
    let placement = std::env::var("PLACEMENT").map_or(0, |text| text.parse().expect("PLACEMENT"));
    let (folder, name, kind) = match std::env::var("CARGO_FEATURE_COMPARE") {
        Ok(_) => (PathBuf::from(std::env::var("PAIR").expect("PAIR")), "pair", "static:+whole-archive"),
        Err(_) => (Path::new(&here).join("../target/staticlib"), "pelshaqu", "static"),
    };
    let archive = folder.join(format!("lib{name}.a"));
    if !archive.is_file() {
        panic!("no archive at {}", archive.display());
    }
    println!("cargo:rustc-env=PLACE={placement}");
    println!("cargo:rustc-env=PADDING={}", 16 * placement);
    println!("cargo:rerun-if-env-changed=PLACEMENT");
    println!("cargo:rerun-if-env-changed=PAIR");
    println!("cargo:rerun-if-changed=build.rs");
    println!("cargo:rerun-if-changed={}", archive.display());
    println!("cargo:rustc-link-search=native={}", folder.display());
    println!("cargo:rustc-link-lib={kind}={name}");
}
