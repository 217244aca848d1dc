//! Tells the linker where the ways of MEMCP's copy are; only with the feature `copies`.

use std::path::Path;

fn main() {
    println!("cargo:rerun-if-env-changed=RIKZORD_LIB");
    if std::env::var_os("CARGO_FEATURE_COPIES").is_none() {
        return;
    }
    let folder = std::env::var("RIKZORD_LIB").unwrap_or("../target/staticlib".to_string());
    let folder = Path::new("..").join(folder);
    let folder = match folder.canonicalize() {
        Ok(folder) if folder.join("libcopies.a").is_file() => folder,
        _ => panic!("no libcopies.a in {}: `tools/staticlib copies` writes it", folder.display()),
    };
    println!("cargo:rerun-if-changed={}", folder.join("libcopies.a").display());
    println!("cargo:rustc-link-search=native={}", folder.display());
}
