//! Links the archive of the proved library, as the sources stand: `tools/proved archive` checks them
//! and builds it where they have changed. Where TANNOPLEX_ARCHIVE names a folder, the archive there is
//! linked as it is, under its name in the repository or as installed, and nothing is checked.
//!
//! The archive is for x86-64: for another target it is linked into a program of its own, `bridge.c`,
//! which `src/emulated.rs` runs.

use std::env::{var, var_os};
use std::path::{Path, PathBuf};
use std::process::Command;

const FOLDER: &str = "TANNOPLEX_ARCHIVE";
/// The archive's names without `lib` and `.a`: the toolchain's, and that of `tools/install`.
const NAMES: [&str; 2] = ["board", "tannoplex"];

fn main() {
    if let Err(why) = linked() {
        eprintln!("{why}");
        std::process::exit(1);
    }
}

fn linked() -> Result<(), String> {
    // Not by `env!`: cargo may run this script as it was compiled in another copy of the repository.
    let package = PathBuf::from(var_os("CARGO_MANIFEST_DIR").expect("cargo sets it"));
    let root = package.join("../..");
    let folder = match var_os(FOLDER).map(PathBuf::from) {
        Some(folder) if folder.is_absolute() => folder,
        Some(folder) => return Err(format!("{FOLDER}={} is not absolute", folder.display())),
        None => proved(&root)?,
    };
    let folder = folder.canonicalize().map_err(|error| format!("{}: {error}", folder.display()))?;
    let archive = |name: &&str| folder.join(format!("lib{name}.a"));
    let Some(name) = NAMES.iter().find(|name| archive(name).exists()) else {
        return Err(format!("{} has no libboard.a and no libtannoplex.a", folder.display()));
    };
    println!("cargo:rerun-if-env-changed={FOLDER}");
    println!("cargo:rerun-if-changed={}", archive(name).display());
    match (var("CARGO_CFG_TARGET_ARCH").as_deref(), var("CARGO_CFG_TARGET_OS").as_deref()) {
        (Ok("x86_64"), Ok(system @ ("macos" | "windows"))) => {
            Err(format!("the archive has the form of Linux's, and cannot be linked for {system}"))
        }
        (Ok("x86_64"), _) => {
            println!("cargo:rustc-link-search=native={}", folder.display());
            println!("cargo:rustc-link-lib=static={name}");
            Ok(())
        }
        _ => build_bridge(&package, &root, &archive(name)),
    }
}

/// The folder of the archive that the sources in the repository give.
fn proved(root: &Path) -> Result<PathBuf, String> {
    // A file that is never there has cargo run this each time: the check goes by what the sources
    // hold, where cargo would go by their times.
    println!("cargo:rerun-if-changed={}", root.join("target/always").display());
    match Command::new(root.join("tools/proved")).arg("archive").status() {
        Ok(status) if status.success() => Ok(root.join("crates/board/out")),
        _ => Err(format!(
            "tools/proved archive failed: the archive of the proved library cannot be built. \
             Set {FOLDER} to a folder that has one to link that as it is."
        )),
    }
}

fn build_bridge(package: &Path, root: &Path, archive: &Path) -> Result<(), String> {
    let source = package.join("bridge.c");
    let (tool, include) = (root.join("tools/x86"), root.join("include"));
    for file in [&source, &tool, &include] {
        println!("cargo:rerun-if-changed={}", file.display());
    }
    let bridge = PathBuf::from(var_os("OUT_DIR").expect("cargo sets it")).join("bridge");
    let built = Command::new(&tool)
        .args(["cc", "-std=c99", "-O2", "-Wall", "-Wextra", "-Werror", "-I"])
        .args([&include, Path::new("-o"), &bridge, &source, archive])
        .status();
    match built {
        Ok(status) if status.success() => Ok(()),
        _ => Err("rust/tannoplex/bridge.c cannot be built by tools/x86 cc".to_string()),
    }
}
