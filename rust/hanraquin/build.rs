//! Finds the proved library, `libhanraquin.a`, and has it linked.
//!
//! It is looked for in the folder that `HANRAQUIN_LIB_DIR` names, or else in `target/staticlib` of
//! the repository, where `make staticlib` puts it. That is run if it is not there. An archive that
//! is there is taken as it is: after a change in `crates/`, run `make staticlib` first.
//!
//! A relative path in `HANRAQUIN_LIB_DIR` is taken from the folder in which cargo was called, as
//! `PWD` tells it, then from the folder of this package and from those above it, up to the root of
//! the repository. The first of these that has the archive is taken.

use std::env;
use std::path::{Path, PathBuf};
use std::process::Command;

const ARCHIVE: &str = "libhanraquin.a";
const NAMED: &str = "HANRAQUIN_LIB_DIR";

fn main() {
    println!("cargo::rerun-if-changed=build.rs");
    println!("cargo::rerun-if-env-changed={NAMED}");
    match folder() {
        Ok(folder) => {
            println!("cargo::rerun-if-changed={}", folder.join(ARCHIVE).display());
            println!("cargo::rustc-link-search=native={}", folder.display());
            println!("cargo::rustc-link-lib=static=hanraquin");
        }
        // Cargo prints these lines, and fails.
        Err(message) => {
            for line in message.lines() {
                println!("cargo::error={line}");
            }
        }
    }
}

/// The folder that holds the archive.
fn folder() -> Result<PathBuf, String> {
    let [arch, system] = ["ARCH", "OS"].map(|what| variable(&format!("CARGO_CFG_TARGET_{what}")));
    if (arch.as_str(), system.as_str()) != ("x86_64", "linux") {
        return Err(format!(
            "the proved library is machine code for x86-64 Linux, and cannot be linked into a program for {}",
            variable("TARGET")
        ));
    }

    // Of the repository, whose root is two folders above this package.
    let package = PathBuf::from(variable("CARGO_MANIFEST_DIR"));
    let above: Vec<&Path> = package.ancestors().take(3).collect();
    if let Some(named) = env::var_os(NAMED).filter(|named| !named.is_empty()) {
        return named_folder(Path::new(&named), &above);
    }
    let repository = above.last().ok_or("run this by cargo")?;
    let folder = repository.join("target/staticlib");
    if !folder.join(ARCHIVE).is_file() {
        build(repository)?;
    }
    Ok(folder)
}

fn variable(name: &str) -> String {
    env::var(name).unwrap_or_default()
}

/// The folder that a path names which is absolute, or relative to one of several folders.
fn named_folder(named: &Path, above: &[&Path]) -> Result<PathBuf, String> {
    let mut tried: Vec<PathBuf> = vec![];
    if named.is_relative() {
        println!("cargo::rerun-if-env-changed=PWD");
        let called_in = env::var_os("PWD").map(PathBuf::from);
        for folder in called_in.as_deref().iter().chain(above) {
            let candidate = folder.join(named);
            if !tried.contains(&candidate) {
                tried.push(candidate);
            }
        }
    } else {
        tried.push(named.to_owned());
    }
    if let Some(folder) = tried.iter().find(|folder| folder.join(ARCHIVE).is_file()) {
        return Ok(folder.clone());
    }
    let mut message = format!("there is no {ARCHIVE} where {NAMED} says, in");
    for folder in &tried {
        message += &format!("\n    {}", folder.display());
    }
    Err(message)
}

/// Proves and compiles the library.
fn build(repository: &Path) -> Result<(), String> {
    if !repository.join("crates.txt").is_file() {
        return Err(missing(
            "the folder of this package does not stand in the repository of the library",
        ));
    }
    if let Err(error) = Command::new("rt").arg("version").output() {
        return Err(missing(&format!(
            "the Rattle kit is not installed, or its rt is not in PATH ({error})"
        )));
    }
    let made = Command::new("make")
        .args(["--no-print-directory", "staticlib"])
        .current_dir(repository)
        .env_remove("MAKEFLAGS")
        .env_remove("MFLAGS")
        .output()
        .map_err(|error| missing(&format!("make cannot be run ({error})")))?;
    if made.status.success() {
        return Ok(());
    }
    let said = [made.stdout, made.stderr].concat();
    Err(format!(
        "make staticlib failed:\n{}",
        String::from_utf8_lossy(&said)
    ))
}

/// What to do where there is no archive.
fn missing(why: &str) -> String {
    format!(
        "there is no target/staticlib/{ARCHIVE}, and it cannot be built: {why}\n\
         either install the Rattle kit, with its rt in PATH: then make staticlib in the root of the repository builds it\n\
         or set {NAMED} to a folder that has {ARCHIVE}, built elsewhere"
    )
}
