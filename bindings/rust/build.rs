//! Tells rustc where the library is: in the folder that `STARLARK_LEX_DIR` names, with the feature
//! `system` where pkg-config finds it, or in this crate, in the folder of the target.
//!
//! Where there is none a warning says why, and only what links fails. So the crate is checked and
//! documented for any target.

use std::env;
use std::path::{Path, PathBuf};
use std::process::Command;

const FOLDER: &str = "STARLARK_LEX_DIR";
const ARCHIVE: &str = "libstarlark_lex.a";
const PKG_CONFIG: &str = "PKG_CONFIG";

/// The targets of which a released crate has the library.
const TARGETS: [&str; 3] = [
    "x86_64-unknown-linux-gnu",
    "aarch64-unknown-linux-gnu",
    "x86_64-pc-windows-gnu",
];

fn main() {
    println!("cargo:rerun-if-changed=build.rs");
    println!("cargo:rerun-if-env-changed={FOLDER}");
    let found = match env::var_os(FOLDER) {
        Some(folder) => link_archive(Path::new(&folder)),
        None if env::var_os("CARGO_FEATURE_SYSTEM").is_some() => link_system(),
        None => link_archive(&folder_of_target()),
    };
    if let Err(missing) = found {
        println!("cargo:warning={missing}");
        println!("cargo:rustc-link-lib=static=starlark_lex");
    }
}

/// The folder of the crate with the library of the target.
fn folder_of_target() -> PathBuf {
    let top = PathBuf::from(variable("CARGO_MANIFEST_DIR"));
    top.join("lib").join(variable("TARGET"))
}

/// Links the archive in a folder.
///
/// # Errors
///
/// What is to be done where there is none.
fn link_archive(folder: &Path) -> Result<(), String> {
    let archive = folder.join(ARCHIVE);
    let is_there = archive.is_file();
    // Cargo builds the crate each time where it watches a file that isn't there.
    if is_there || env::var_os(FOLDER).is_some() {
        println!("cargo:rerun-if-changed={}", archive.display());
    }
    if !is_there {
        return Err(format!(
            "there is no {}: the released crate has the library for {}; for another target {FOLDER} \
             names a folder with {ARCHIVE}, or the feature `system` takes the system's library",
            archive.display(),
            TARGETS.join(", ")
        ));
    }
    println!("cargo:rustc-link-search=native={}", folder.display());
    println!("cargo:rustc-link-lib=static=starlark_lex");
    Ok(())
}

/// Links the library of the system, as `PKG_CONFIG` or else pkg-config finds it. A later minor version
/// may have more kinds of tokens than the crate.
///
/// # Errors
///
/// What pkg-config says where it doesn't find it.
fn link_system() -> Result<(), String> {
    for name in [
        PKG_CONFIG,
        "PKG_CONFIG_PATH",
        "PKG_CONFIG_LIBDIR",
        "PKG_CONFIG_SYSROOT_DIR",
    ] {
        println!("cargo:rerun-if-env-changed={name}");
    }
    if env::var_os(PKG_CONFIG).is_none() && variable("HOST") != variable("TARGET") {
        return Err(format!(
            "{PKG_CONFIG} has to name the pkg-config of {}",
            variable("TARGET")
        ));
    }
    let [version, major, minor] =
        ["", "_MAJOR", "_MINOR"].map(|part| variable(&format!("CARGO_PKG_VERSION{part}")));
    let least = format!("starlark_lex >= {version}");
    let most = format!("starlark_lex <= {major}.{minor}.999");
    let flags = format!(" {}", pkg_config(&["--libs-only-L", &least, &most])?.trim());
    for folder in flags.split(" -L").skip(1) {
        // Before a space in a name pkg-config puts a backslash.
        let folder = folder.replace("\\ ", " ");
        println!("cargo:rustc-link-search=native={folder}");
    }
    println!("cargo:rustc-link-lib=dylib=starlark_lex");
    Ok(())
}

/// What pkg-config prints for some arguments.
///
/// # Errors
///
/// What it says where it fails, in one line.
fn pkg_config(arguments: &[&str]) -> Result<String, String> {
    let program = env::var_os(PKG_CONFIG).unwrap_or_else(|| "pkg-config".into());
    let ran = Command::new(&program)
        .arg("--print-errors")
        .args(arguments)
        .output()
        .map_err(|error| format!("{}: {error}", program.to_string_lossy()))?;
    if ran.status.success() {
        return Ok(String::from_utf8_lossy(&ran.stdout).into_owned());
    }
    let said = String::from_utf8_lossy(&ran.stderr);
    Err(said.split_whitespace().collect::<Vec<_>>().join(" "))
}

/// A variable that cargo sets.
fn variable(name: &str) -> String {
    env::var(name).unwrap_or_else(|_| panic!("cargo sets {name}"))
}
