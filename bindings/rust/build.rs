//! Finds libexport.a, which `./archive` writes, and tells cargo where it is.
use std::env;
use std::path::{Path, PathBuf};
use std::process::exit;

const ARCHIVE: &str = "libexport.a";

/// Says plainly what is wrong, with no backtrace around it, and stops the build.
fn stop(why: &str) -> ! {
    eprintln!("tsintovehy: {}", why);
    exit(1)
}

fn variable(name: &str) -> Option<String> {
    env::var(name).ok().filter(|value| !value.is_empty())
}

/// The archive is code for x86-64 Linux: any other target would end in a linker's riddle.
fn check_target() {
    let arch = variable("CARGO_CFG_TARGET_ARCH").unwrap_or_default();
    let os = variable("CARGO_CFG_TARGET_OS").unwrap_or_default();
    if arch != "x86_64" || os != "linux" {
        stop(&format!(
            "the target is {}, {}, and libexport.a is code for x86_64, linux alone: \
             build with `--target x86_64-unknown-linux-gnu`",
            arch, os
        ));
    }
}

/// The folder that TSINTOVEHY_LIB names, else the repository's. A relative name is refused: cargo runs this in the crate's
/// folder, and the one who set it most likely was in another.
fn folder() -> PathBuf {
    match variable("TSINTOVEHY_LIB") {
        Some(named) if Path::new(&named).is_relative() => stop("TSINTOVEHY_LIB has to name its folder from the root, with a /"),
        Some(named) => PathBuf::from(named),
        None => Path::new(&variable("CARGO_MANIFEST_DIR").unwrap_or_default()).join("../../target/staticlib"),
    }
}

fn main() {
    println!("cargo:rerun-if-env-changed=TSINTOVEHY_LIB");
    check_target();
    let folder = folder();
    let archive = folder.join(ARCHIVE);
    println!("cargo:rerun-if-changed={}", archive.display());
    if !archive.is_file() {
        stop(&format!(
            "{} is not there: run `./archive` at the repository's root, \
             or set TSINTOVEHY_LIB to the folder that has libexport.a",
            archive.display()
        ));
    }
    println!("cargo:rustc-link-search=native={}", folder.display());
}
