//! Tells the linker where the proved static library is: `../target/staticlib` as seen from the folder of the workspace, or `RIKZORD_LIB`.

use std::path::Path;

fn main() {
    println!("cargo:rerun-if-env-changed=RIKZORD_LIB");
    let folder = std::env::var("RIKZORD_LIB").unwrap_or("../target/staticlib".to_string());
    // This package is one folder below the workspace; an absolute folder stays what it is.
    let folder = Path::new("..").join(folder);
    let folder = match folder.canonicalize() {
        Ok(folder) if folder.join("librikzord.a").is_file() => folder,
        _ => panic!(
            "no librikzord.a in {}: `tools/staticlib rikzord` writes it to target/staticlib, RIKZORD_LIB names another folder",
            folder.display()
        ),
    };
    println!("cargo:rerun-if-changed={}", folder.join("librikzord.a").display());
    println!("cargo:rustc-link-search=native={}", folder.display());
    println!("cargo:rustc-link-lib=static=rikzord");
}
