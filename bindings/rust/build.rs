//! Tells Cargo where `libpaseto.a` is: in the folder that `PASETO_LIB_DIR` names, else where pkg-config finds it, else
//! beside the crate: in its folder `lib`, which the packaged crate has, or where the repository's `build.sh` puts it.
//!
//! For a processor with AVX2 it takes the library that is built for x86-64-v3, where the folder has one in
//! `x86-64-v3/libpaseto.a`.

use std::env;
use std::path::{Path, PathBuf};
use std::process::{exit, Command};

const ARCHIVE: &str = "libpaseto.a";

fn main() {
    println!("cargo:rerun-if-env-changed=PASETO_LIB_DIR");
    println!("cargo:rerun-if-env-changed=PKG_CONFIG_PATH");
    let folder = folder().unwrap_or_else(|fault| {
        eprintln!("{fault}");
        exit(1);
    });
    let folder = for_processor(folder);
    println!("cargo:rerun-if-changed={}", folder.join(ARCHIVE).display());
    println!("cargo:rustc-link-search=native={}", folder.display());
    println!("cargo:rustc-link-lib=static=paseto");
}

// The folder that has the archive.
fn folder() -> Result<PathBuf, String> {
    if let Some(named) = env::var_os("PASETO_LIB_DIR").map(PathBuf::from) {
        return match named.join(ARCHIVE).is_file() {
            true => Ok(named),
            false => Err(format!(
                "PASETO_LIB_DIR names {}, which has no {ARCHIVE}: `bash build.sh PREFIX` of the repository makes PREFIX/lib",
                named.display()
            )),
        };
    }
    let found = installed().into_iter().chain(beside());
    found
        .into_iter()
        .find(|folder| folder.join(ARCHIVE).is_file())
        .ok_or_else(|| {
            format!("there is no {ARCHIVE}: run `bash build.sh` of the repository, or set PASETO_LIB_DIR to the folder that has it")
        })
}

// Where pkg-config says that the library is, for a program that is built for this machine.
fn installed() -> Option<PathBuf> {
    if env::var_os("HOST") != env::var_os("TARGET") {
        return None;
    }
    let answer = Command::new("pkg-config")
        .args(["--variable=libdir", "paseto"])
        .output()
        .ok()?;
    let folder = String::from_utf8(answer.stdout).ok()?;
    (answer.status.success() && !folder.trim().is_empty()).then(|| PathBuf::from(folder.trim()))
}

// The folder of the packaged crate, and that of the repository.
fn beside() -> [PathBuf; 2] {
    let crate_folder = env::var_os("CARGO_MANIFEST_DIR").map_or_else(PathBuf::new, PathBuf::from);
    [
        crate_folder.join("lib"),
        crate_folder.join("../../build/lib"),
    ]
}

// The folder of the build for processors with AVX2, where the program is for those and there is such a build.
fn for_processor(folder: PathBuf) -> PathBuf {
    let features = env::var("CARGO_CFG_TARGET_FEATURE").unwrap_or_default();
    let faster: &Path = &folder.join("x86-64-v3");
    if features.split(',').any(|feature| feature == "avx2") && faster.join(ARCHIVE).is_file() {
        return faster.to_owned();
    }
    folder
}
