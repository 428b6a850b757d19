// Links the archives of the repository's target/staticlib: the library, or with the feature `exports` the planner's and that of every other call,
// for tests.
use std::path::Path;

fn main() {
    let here = std::env::var("CARGO_MANIFEST_DIR").unwrap();
    let folder = Path::new(&here).join("../../target/staticlib");
    let names: &[&str] = match std::env::var("CARGO_FEATURE_EXPORTS") {
        Ok(_) => &["planner", "test_exports"],
        Err(_) => &["pelshaqu"],
    };
    println!("cargo:rerun-if-changed=build.rs");
    println!("cargo:rustc-link-search=native={}", folder.display());
    for name in names {
        let archive = folder.join(format!("lib{}.a", name));
        if !archive.is_file() {
            panic!("no archive at {}", archive.display());
        }
        println!("cargo:rerun-if-changed={}", archive.display());
        println!("cargo:rustc-link-lib=static={}", name);
    }
}
