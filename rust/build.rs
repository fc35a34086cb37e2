//! Finds the library, libnattizhu.a and for x86-64 also libnattizhu_v3.a: in the folder that
//! `NATTIZHU_LIB_DIR` names, or where pkg-config says, or where `make library` leaves them in this repository, and the
//! archive of the source has them.

use std::env;
use std::path::{Path, PathBuf};
use std::process::{exit, Command};

fn file(folder: &Path, library: &str) -> PathBuf {
    folder.join(format!("lib{library}.a"))
}

/// The folder that pkg-config names, if it runs and knows the library.
fn by_pkg_config() -> Option<PathBuf> {
    let said = Command::new("pkg-config")
        .args(["--variable=libdir", "nattizhu"])
        .output()
        .ok()?;
    let folder = String::from_utf8(said.stdout).ok()?;
    said.status.success().then(|| folder.trim_end().into())
}

fn main() {
    for name in ["NATTIZHU_LIB_DIR", "PKG_CONFIG_PATH", "PKG_CONFIG_LIBDIR"] {
        println!("cargo:rerun-if-env-changed={name}");
    }
    let here = env::var_os("CARGO_MANIFEST_DIR").unwrap_or_default();
    let mut built = Path::new(&here).join("../crates/ripemd_c/out");
    let mut libraries = vec!["nattizhu"];
    let processor = env::var("CARGO_CFG_TARGET_ARCH").unwrap_or_default();
    let host = env::var("HOST").unwrap_or_default();
    if processor == "x86_64" {
        libraries.push("nattizhu_v3");
    } else {
        built.push(format!("{processor}-unknown-linux-gnu"));
    }
    // For another processor pkg-config would name a library of this machine.
    let installed = if host.starts_with(&processor) {
        by_pkg_config()
    } else {
        None
    };
    let folders = match env::var_os("NATTIZHU_LIB_DIR") {
        Some(named) => vec![named.into()],
        None => installed.into_iter().chain([built]).collect(),
    };
    let has_all = |folder: &&PathBuf| libraries.iter().all(|name| file(folder, name).exists());
    match folders.iter().find(has_all) {
        Some(folder) => {
            println!("cargo:rustc-link-search=native={}", folder.display());
            for name in libraries {
                println!("cargo:rerun-if-changed={}", file(folder, name).display());
                println!("cargo:rustc-link-lib=static={name}");
            }
        }
        None => {
            eprintln!(
                "There is no library of {libraries:?} in {folders:?}. Three ways to have it:\n\
                 - install Debian's package libnattizhu-dev, or another that pkg-config knows;\n\
                 - take this crate from the archive of the source, which has it, or run `make library` in the \
                 repository (for ARM64 with TARGET=);\n\
                 - set NATTIZHU_LIB_DIR to the folder that has it."
            );
            exit(1);
        }
    }
}
