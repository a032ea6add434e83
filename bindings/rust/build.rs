//! Finds `libhousechervil.a` and links it.
//!
//! The library is looked for where `make` puts it, `target/staticlib` at the repository's root, or in the
//! directory that the environment variable `HOUSECHERVIL_LIB_DIR` names by an absolute path.

use std::env;
use std::ffi::OsString;
use std::path::{Path, PathBuf};
use std::process::exit;

const VARIABLE: &str = "HOUSECHERVIL_LIB_DIR";

pub fn main() {
    println!("cargo:rerun-if-changed=build.rs");
    println!("cargo:rerun-if-env-changed={VARIABLE}");
    if let Err(message) = link() {
        eprintln!("housechervil: {message}");
        exit(1);
    }
}

fn link() -> Result<(), String> {
    let target = |part: &str| env::var(format!("CARGO_CFG_TARGET_{part}")).unwrap_or_default();
    built_for(&target("ARCH"), &target("OS"))?;
    let directory = directory(env::var_os(VARIABLE))?;
    let directory = directory.canonicalize().unwrap_or(directory);
    let library = directory.join("libhousechervil.a");
    println!("cargo:rerun-if-changed={}", library.display());
    present(&library)?;
    println!("cargo:rustc-link-search=native={}", directory.display());
    println!("cargo:rustc-link-lib=static=housechervil");
    Ok(())
}

/// The library is for one target.
pub fn built_for(arch: &str, os: &str) -> Result<(), String> {
    match (arch, os) {
        ("x86_64", "linux") => Ok(()),
        _ => Err(format!("the static library is for x86_64 linux, and this build is for {arch} {os}")),
    }
}

/// Where the library is looked for, by what the variable names. Cargo runs a build script in the package's folder and does not say
/// in which folder it was called, so a relative path would mean another folder than the caller's.
pub fn directory(named: Option<OsString>) -> Result<PathBuf, String> {
    let named = match named {
        Some(named) => PathBuf::from(named),
        None => return Ok(Path::new(env!("CARGO_MANIFEST_DIR")).join("../../target/staticlib")),
    };
    if named.as_os_str().is_empty() {
        return Err(format!("{VARIABLE} is empty. {ADVICE}"));
    }
    if named.is_relative() {
        let named = named.display();
        return Err(format!("{VARIABLE} is a relative path, {named}, and the build cannot tell from where. {ADVICE}"));
    }
    Ok(named)
}

const ADVICE: &str = "Give it the absolute path of the directory that holds libhousechervil.a, or unset it.";

pub fn present(library: &Path) -> Result<(), String> {
    if library.is_file() {
        return Ok(());
    }
    Err(format!(
        "{} is missing.\nRun `make` at the repository's root, or name the directory that holds \
         libhousechervil.a in {VARIABLE}, by an absolute path.",
        library.display()
    ))
}
