//! Links the proved library, which `tools/build` builds, if it can draw. The variable IMG_LIBRARY names another folder to look in.

use std::path::PathBuf;

fn main() {
    println!("cargo:rerun-if-env-changed=IMG_LIBRARY");
    let folder = match std::env::var_os("IMG_LIBRARY") {
        Some(folder) => PathBuf::from(folder),
        None => PathBuf::from(env!("CARGO_MANIFEST_DIR")).join("../../target/staticlib"),
    };
    let archive = folder.join("libimg.a");
    println!("cargo:rerun-if-changed={}", archive.display());
    let bytes = std::fs::read(&archive).unwrap_or_default();
    let draws = bytes.windows(9).any(|part| part == b"img_draw\0");
    if !draws {
        let archive = archive.display();
        println!("cargo:warning={archive} has no img_draw: only the baseline is measured");
        return;
    }
    println!("cargo:rustc-cfg=ours");
    println!("cargo:rustc-link-search=native={}", folder.display());
    println!("cargo:rustc-link-lib=static=img");
}
