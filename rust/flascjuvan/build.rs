//! Links the proved library, libflascjuvan.a. It is looked for
//!
//! 1. in the folder that FLASCJUVAN_LIB_DIR names, if that is set;
//! 2. in the project's own repository, where scripts/native-lib makes it;
//! 3. elsewhere in the folder that pkg-config knows for `flascjuvan`.

use std::env;
use std::ffi::OsString;
use std::fs::read_dir;
use std::path::{Path, PathBuf};
use std::process::{exit, Command};

const ARCHIVE: &str = "libflascjuvan.a";

fn main() {
    for name in ["FLASCJUVAN_LIB_DIR", "PKG_CONFIG", "PKG_CONFIG_PATH", "PKG_CONFIG_LIBDIR"] {
        println!("cargo:rerun-if-env-changed={name}");
    }
    // asked when it runs: a build script that was compiled for the package is run for the repository too
    let here = env::var_os("CARGO_MANIFEST_DIR").unwrap_or_else(|| fail("cargo names no folder of the package"));
    let root = Path::new(&here).join("../..");
    let dir = match env::var_os("FLASCJUVAN_LIB_DIR") {
        Some(dir) => named(dir),
        None if root.join("scripts/native-lib").is_file() => made(&root),
        None => installed(),
    };
    let archive = dir.join(ARCHIVE);
    if !archive.is_file() {
        fail(&format!("there is no {ARCHIVE} in {}", dir.display()));
    }
    println!("cargo:rerun-if-changed={}", archive.display());
    println!("cargo:rustc-link-search=native={}", dir.display());
    println!("cargo:rustc-link-lib=static=flascjuvan");
}

/// The folder that was named. The linker runs elsewhere, so it has to be absolute.
fn named(dir: OsString) -> PathBuf {
    let dir = PathBuf::from(dir);
    if !dir.is_absolute() {
        fail(&format!("FLASCJUVAN_LIB_DIR has to be an absolute path, and is {:?}", dir));
    }
    dir
}

/// Runs scripts/native-lib, and gives the folder that it writes to.
fn made(root: &Path) -> PathBuf {
    for part in ["crates.txt", "scripts/native-lib", "scripts/proving"] {
        println!("cargo:rerun-if-changed={}", root.join(part).display());
    }
    for source in sources(&root.join("crates")) {
        println!("cargo:rerun-if-changed={}", source.display());
    }
    let script = root.join("scripts/native-lib");
    match Command::new(&script).status() {
        Ok(status) if status.success() => root.join("target/native"),
        Ok(_) => fail("scripts/native-lib made no library; it says why above"),
        Err(why) => fail(&format!("{} could not be run: {why}", script.display())),
    }
}

/// The folders of each crate's sources. Beside them lies what proving keeps, which changes with every run.
fn sources(crates: &Path) -> Vec<PathBuf> {
    let found = match read_dir(crates) {
        Ok(found) => found,
        Err(why) => fail(&format!("{} could not be read: {why}", crates.display())),
    };
    let folders = found.flatten().map(|entry| entry.path());
    let parts = folders.flat_map(|folder| ["src", "specs", "proofs"].map(|part| folder.join(part)));
    parts.filter(|part| part.is_dir()).collect()
}

/// The folder that pkg-config knows.
fn installed() -> PathBuf {
    let pkg_config = env::var_os("PKG_CONFIG").unwrap_or_else(|| OsString::from("pkg-config"));
    let wanted =
        format!("set FLASCJUVAN_LIB_DIR to the folder of {ARCHIVE}, or PKG_CONFIG_PATH to that of flascjuvan.pc");
    let output = match Command::new(&pkg_config).args(["--variable=libdir", "flascjuvan"]).output() {
        Ok(output) => output,
        Err(why) => fail(&format!("{} could not be run: {why}; {wanted}", pkg_config.to_string_lossy())),
    };
    let dir = String::from_utf8_lossy(&output.stdout).trim().to_owned();
    if !output.status.success() || dir.is_empty() {
        let said = String::from_utf8_lossy(&output.stderr).trim().to_owned();
        fail(&format!("pkg-config doesn't know flascjuvan: {wanted}\n{said}"));
    }
    PathBuf::from(dir)
}

fn fail(why: &str) -> ! {
    eprintln!("flascjuvan: {why}");
    exit(1)
}
