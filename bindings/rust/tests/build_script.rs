//! The build script: where it looks for the library, and what it refuses.

#[allow(dead_code)]
#[path = "../build.rs"]
mod build_script;

use std::env;
use std::ffi::OsString;
use std::fs;
use std::path::{Path, PathBuf};
use std::process::{Command, Output};

use build_script::{built_for, directory, present};

fn named(path: &str) -> Result<String, String> {
    directory(Some(OsString::from(path))).map(|found| found.display().to_string())
}

#[test]
fn absolute_paths_are_taken_as_they_are() {
    for path in ["/usr/lib", "/", "/opt/../opt/housechervil/"] {
        assert_eq!(named(path), Ok(path.to_string()));
    }
}

/// A relative path would be taken from the package's folder, which is not the caller's.
#[test]
fn relative_and_empty_paths_are_refused() {
    for path in ["target/staticlib", ".", "..", "./lib", "lib", "~/lib", " /usr/lib"] {
        let message = named(path).unwrap_err();
        assert!(message.starts_with(&format!("HOUSECHERVIL_LIB_DIR is a relative path, {path}, ")), "{message}");
        assert!(message.contains("Give it the absolute path"), "{message}");
    }
    let message = named("").unwrap_err();
    assert!(message.starts_with("HOUSECHERVIL_LIB_DIR is empty. Give it the absolute path"), "{message}");
}

#[test]
fn unset_means_the_repository() {
    let found = directory(None).unwrap();
    assert!(found.is_absolute() && found.starts_with(env!("CARGO_MANIFEST_DIR")));
    assert!(found.ends_with("../../target/staticlib"));
}

#[test]
fn other_targets_are_refused() {
    assert_eq!(built_for("x86_64", "linux"), Ok(()));
    for (arch, os) in [("aarch64", "linux"), ("x86_64", "windows"), ("x86_64", "macos"), ("x86", "linux"), ("", "")] {
        assert!(built_for(arch, os).unwrap_err().ends_with(&format!("this build is for {arch} {os}")));
    }
}

#[test]
fn a_missing_library_is_named() {
    assert_eq!(present(Path::new(concat!(env!("CARGO_MANIFEST_DIR"), "/build.rs"))), Ok(()));
    let message = present(Path::new("/no/such/place/libhousechervil.a")).unwrap_err();
    assert!(message.starts_with("/no/such/place/libhousechervil.a is missing."), "{message}");
    assert!(message.contains("Run `make` at ") && message.contains("HOUSECHERVIL_LIB_DIR"), "{message}");
}

// ---------------------------------------------------------------- the whole script, in a process of its own

/// What `script` runs in another process; for anyone else it does nothing.
#[test]
#[ignore = "it is the build script, which other tests run"]
fn build_script_itself() {
    // Cargo sets this for build scripts alone.
    if env::var_os("CARGO_CFG_TARGET_ARCH").is_some() {
        build_script::main();
    }
}

/// The script, run as cargo would run it, with the variable set.
fn script(variable: &Path) -> Output {
    Command::new(env::current_exe().unwrap())
        .args(["--exact", "build_script_itself", "--ignored", "--nocapture"])
        .env("CARGO_CFG_TARGET_ARCH", "x86_64")
        .env("CARGO_CFG_TARGET_OS", "linux")
        .env("HOUSECHERVIL_LIB_DIR", variable)
        .output()
        .unwrap()
}

/// A directory of this test alone that holds a file of the library's name.
fn with_library() -> PathBuf {
    let directory = Path::new(env!("CARGO_TARGET_TMPDIR")).join("build_script");
    fs::create_dir_all(&directory).unwrap();
    fs::write(directory.join("libhousechervil.a"), "").unwrap();
    directory.canonicalize().unwrap()
}

#[test]
fn the_script_links_what_is_named() {
    let directory = with_library();
    let output = script(&directory);
    let printed = String::from_utf8(output.stdout).unwrap();
    assert!(output.status.success(), "{printed}");
    let line = |wanted: String| assert!(printed.lines().any(|line| line == wanted), "{wanted} in {printed}");
    line(format!("cargo:rustc-link-search=native={}", directory.display()));
    line("cargo:rustc-link-lib=static=housechervil".to_string());
}

#[test]
fn the_script_ends_with_a_message() {
    for (variable, message) in [
        ("target/staticlib", "housechervil: HOUSECHERVIL_LIB_DIR is a relative path, target/staticlib, "),
        ("", "housechervil: HOUSECHERVIL_LIB_DIR is empty. "),
        ("/no/such/place", "housechervil: /no/such/place/libhousechervil.a is missing."),
    ] {
        let output = script(Path::new(variable));
        let said = String::from_utf8(output.stderr).unwrap();
        assert_eq!(output.status.code(), Some(1), "{said}");
        assert!(said.starts_with(message), "{said}");
        assert!(!String::from_utf8(output.stdout).unwrap().contains("rustc-link"));
    }
}
