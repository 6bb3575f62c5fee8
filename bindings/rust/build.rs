//! Finds `libaugtrie.a` and links it: in the folder that `AUGTRIE_LIB` names, else in `native` beside this file, where the packed crate has it, else
//! where pkg-config says. The crate is built again when the archive changes. Without one it is checked and documented, but not built.
use std::env;
use std::path::PathBuf;
use std::process::Command;

// The folder of the archive by pkg-config.
fn by_pkg_config() -> Option<PathBuf> {
    let command = env::var_os("PKG_CONFIG").unwrap_or_else(|| "pkg-config".into());
    let said = Command::new(command).args(["--variable=libdir", "augtrie"]).output().ok()?;
    let folder = String::from_utf8(said.stdout).ok()?;
    said.status.success().then(|| PathBuf::from(folder.trim()))
}

fn main() {
    for name in ["AUGTRIE_LIB", "PKG_CONFIG", "PKG_CONFIG_PATH"] {
        println!("cargo:rerun-if-env-changed={name}");
    }
    println!("cargo:rustc-link-lib=static=augtrie");
    let packed = PathBuf::from(env::var_os("CARGO_MANIFEST_DIR").expect("cargo says the folder")).join("native");
    let named = env::var_os("AUGTRIE_LIB").filter(|folder| !folder.is_empty()).map(PathBuf::from);
    let Some(folder) = named.or_else(|| packed.is_dir().then(|| packed.clone())).or_else(by_pkg_config) else {
        println!("cargo:warning=libaugtrie.a was not found, so nothing can be linked: AUGTRIE_LIB names no folder, and pkg-config knows no augtrie");
        // As long as this is not there, cargo comes here again each time, so that an archive which is installed later is found.
        println!("cargo:rerun-if-changed={}", packed.display());
        return;
    };
    let archive = folder.join("libaugtrie.a");
    assert!(archive.is_file(), "{} is not there", archive.display());
    println!("cargo:rerun-if-changed={}", archive.display());
    println!("cargo:rustc-link-search=native={}", folder.display());
}
