//! Links the proved library. It is looked for in the folder that IMG_LIB_DIR names, else in `target/staticlib`, where `tools/build` puts it, else where
//! pkg-config says that it is installed.

use std::env;
use std::path::{Path, PathBuf};
use std::process::Command;

fn installed() -> Option<PathBuf> {
    let asked = Command::new("pkg-config")
        .args(["--variable=libdir", "img"])
        .output()
        .ok()?;
    let folder = String::from_utf8(asked.stdout).ok()?;
    asked
        .status
        .success()
        .then(|| PathBuf::from(folder.trim_end()))
}

fn main() {
    println!("cargo:rerun-if-env-changed=IMG_LIB_DIR");
    println!("cargo:rerun-if-env-changed=PKG_CONFIG_PATH");
    let built = Path::new(env!("CARGO_MANIFEST_DIR")).join("../target/staticlib");
    let folder = match env::var_os("IMG_LIB_DIR") {
        Some(named) => PathBuf::from(named),
        None if built.join("libimg.a").exists() => built,
        None => installed().unwrap_or(built),
    };
    let archive = folder.join("libimg.a");
    println!("cargo:rerun-if-changed={}", archive.display());
    if !archive.exists() {
        panic!(
            "no {}: run `tools/build` at the top of the repository, or let IMG_LIB_DIR name the folder of libimg.a",
            archive.display()
        );
    }
    println!("cargo:rustc-link-search=native={}", folder.display());
    println!("cargo:rustc-link-lib=static=img");
}
