//! Links libsorbilgan.a: from the folder that `SORBILGAN_LIB` names, or where `./build` of the repository puts it.
//! Without it there is a warning alone, so that `cargo check` and `cargo doc` do their work.

#[path = "src/version.rs"]
mod version;

use std::path::{Path, PathBuf};
use std::{env, fs};
use version::VERSION;

fn main() {
    println!("cargo::rerun-if-env-changed=SORBILGAN_LIB");
    let target = |part: &str| env::var(format!("CARGO_CFG_TARGET_{part}")).unwrap_or_default();
    if (target("OS").as_str(), target("ARCH").as_str()) != ("linux", "x86_64") {
        println!("cargo::warning=libsorbilgan.a is made for Linux on x86-64 alone: nothing can be linked");
        return;
    }
    let beside = || PathBuf::from(env!("CARGO_MANIFEST_DIR")).join("../../target/staticlib");
    let named = env::var_os("SORBILGAN_LIB").filter(|folder| !folder.is_empty()).map(PathBuf::from);
    match named {
        // this script has another working folder than cargo's caller
        Some(folder) if folder.is_relative() => println!("cargo::error=SORBILGAN_LIB must be an absolute path"),
        named => link(&named.unwrap_or_else(beside).join("libsorbilgan.a")),
    }
}

fn link(library: &Path) {
    let shown = library.display();
    println!("cargo::rustc-link-lib=static=sorbilgan");
    // where there is no library, its folder is watched; a path that is not there would be new each time
    let watched = library.ancestors().take(2).find(|path| path.exists()).unwrap_or(library);
    println!("cargo::rerun-if-changed={}", watched.display());
    match fs::read(library).and_then(|bytes| Ok((bytes, library.canonicalize()?))) {
        Err(why) => println!(
            "cargo::warning={shown}: {why}. Nothing can be linked without it. Make it by ./build, or set SORBILGAN_LIB \
             to the folder that has it"
        ),
        Ok((bytes, _)) if !is_needed(&bytes) => println!(
            "cargo::error={shown} is of another version than this crate, which needs version {VERSION}. Take both from \
             one checkout: make the library by its ./build"
        ),
        Ok((_, found)) => println!("cargo::rustc-link-search=native={}", found.with_file_name("").display()),
    }
}

/// Whether the library has the function that is named after the version.
fn is_needed(library: &[u8]) -> bool {
    let name = format!("sorbilgan_version_{VERSION}\0");
    library.windows(name.len()).any(|found| found == name.as_bytes())
}
