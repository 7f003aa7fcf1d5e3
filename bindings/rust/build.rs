// Links target/staticlib/libexport.a of the repository, which `tools/staticlib` writes; HINGEVALE_LIB names another folder.
use std::path::PathBuf;

fn main() {
    let here = PathBuf::from(std::env::var("CARGO_MANIFEST_DIR").unwrap());
    let folder = match std::env::var("HINGEVALE_LIB") {
        Ok(f) => PathBuf::from(f),
        Err(_) => here.join("../../target/staticlib"),
    };
    let library = folder.join("libexport.a");
    assert!(
        library.exists(),
        "{} isn't there: run `tools/staticlib` first",
        library.display()
    );
    println!("cargo:rustc-link-search=native={}", folder.display());
    println!("cargo:rustc-link-lib=static=export");
    println!("cargo:rerun-if-changed={}", library.display());
    println!("cargo:rerun-if-env-changed=HINGEVALE_LIB");
}
