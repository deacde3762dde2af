//! Links the library of the proved functions, `libsettlement_day.a`.

use std::env;
use std::path::{Path, PathBuf};
use std::process::Command;

/// The environment variable that names the directory of the archive.
const DIRECTORY: &str = "SETTLEMENT_DAY_DIR";
/// The archive's name, as it is linked.
const LIBRARY: &str = "settlement_day";
/// What tells that this package stands in the tree in which the library is built, and where it is there.
const TREE: [&str; 2] = ["../crates.txt", "../build/lib"];

fn main() {
    println!("cargo::rerun-if-env-changed={DIRECTORY}");
    println!("cargo::rerun-if-env-changed=PKG_CONFIG_PATH");
    match directory().and_then(|directory| link(&directory)) {
        Ok(()) => (),
        Err(error) => println!("cargo::error={error}"),
    }
}

/// Links the archive in this directory.
fn link(directory: &Path) -> Result<(), String> {
    let archive = directory.join(format!("lib{LIBRARY}.a"));
    println!("cargo::rerun-if-changed={}", archive.display());
    if !archive.is_file() {
        return Err(format!(
            "there is no {}: build it first with `make libraries`, or set {DIRECTORY} to the directory \
             that holds it",
            archive.display()
        ));
    }
    println!("cargo::rustc-link-search=native={}", directory.display());
    println!("cargo::rustc-link-lib=static={LIBRARY}");
    Ok(())
}

/// The directory of the archive: the one that the environment names; in the tree, that in which it is
/// built; otherwise the one that pkg-config tells.
fn directory() -> Result<PathBuf, String> {
    let package = PathBuf::from(env::var_os("CARGO_MANIFEST_DIR").unwrap_or_default());
    if let Some(named) = env::var_os(DIRECTORY) {
        return Ok(package.join(named));
    }
    let [mark, built] = TREE;
    if package.join(mark).is_file() {
        return Ok(package.join(built));
    }
    installed()
}

/// The directory of the installed library, if it is of a version that this crate is for.
fn installed() -> Result<PathBuf, String> {
    let number = |name: &str| env::var(name).ok().and_then(|digits| digits.parse::<u32>().ok());
    let major = number("CARGO_PKG_VERSION_MAJOR").unwrap_or_default();
    let minor = number("CARGO_PKG_VERSION_MINOR").unwrap_or_default();
    let fitting = format!("settlement-day >= {major}.{minor} settlement-day < {}", major + 1);
    pkg_config(&["--exists", "--print-errors", &fitting])?;
    Ok(pkg_config(&["--variable=libdir", "settlement-day"])?.into())
}

/// What pkg-config answers, or what it says and what to do.
fn pkg_config(words: &[&str]) -> Result<String, String> {
    let told = Command::new("pkg-config")
        .args(words)
        .output()
        .map_err(|error| format!("pkg-config cannot be run ({error}): set {DIRECTORY}"))?;
    if told.status.success() {
        return Ok(String::from_utf8_lossy(&told.stdout).trim().to_string());
    }
    let said = String::from_utf8_lossy(&told.stderr);
    Err(format!(
        "pkg-config knows no fitting library: {}. Set PKG_CONFIG_PATH to the folder lib/pkgconfig of the \
         prefix that it is installed in, or {DIRECTORY} to the directory that holds the archive",
        said.lines().next().unwrap_or_default()
    ))
}
