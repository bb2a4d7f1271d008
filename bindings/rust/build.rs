//! Says where the static library is: in LINGBARROW_LIB_DIR; else where `tools/build boundary` leaves it in this project, which is done
//! here if it was not done yet.
use std::path::{Path, PathBuf};
use std::process::Command;
use std::{env, fs, io};

/// Where `rt lib` leaves it.
const CRATE: &str = "crates/boundary_c";
const BUILT: &str = "out/libboundary_c.a";

const ARCHIVE: &str = "libboundary.a";

fn main() {
    println!("cargo:rerun-if-env-changed=LINGBARROW_LIB_DIR");
    println!("cargo:rerun-if-changed=build.rs");
    match target_fits().and_then(|()| library()) {
        Ok(folder) => {
            println!("cargo:rerun-if-changed={}", folder.join(ARCHIVE).display());
            println!("cargo:rustc-link-search=native={}", folder.display());
        }
        Err(why) => {
            eprintln!("error: lingbarrow: {why}");
            std::process::exit(1);
        }
    }
}

fn told(name: &str) -> String {
    env::var(name).unwrap_or_default()
}

fn target_fits() -> Result<(), String> {
    let (arch, os, width) = (told("CARGO_CFG_TARGET_ARCH"), told("CARGO_CFG_TARGET_OS"), told("CARGO_CFG_TARGET_POINTER_WIDTH"));
    if (arch.as_str(), os.as_str(), width.as_str()) == ("x86_64", "linux", "64") {
        return Ok(());
    }
    let target = told("TARGET");
    Err(format!("the library is code for x86-64 Linux, and this build is for {target}: build with --target x86_64-unknown-linux-gnu"))
}

fn library() -> Result<PathBuf, String> {
    if let Some(folder) = env::var_os("LINGBARROW_LIB_DIR").map(PathBuf::from) {
        return found(&folder).ok_or_else(|| format!("LINGBARROW_LIB_DIR is {}, and there is no {ARCHIVE}", folder.display()));
    }
    let root = Path::new(&told("CARGO_MANIFEST_DIR")).join("../..");
    let folder = root.join("target/staticlib");
    if let Some(folder) = found(&folder) {
        return Ok(folder);
    }
    let instead = format!("; or set LINGBARROW_LIB_DIR to a folder that has {ARCHIVE}");
    let project = root.join(CRATE);
    if !project.is_dir() {
        return Err(format!("there is no {}, and no project to build it from{instead}", folder.join(ARCHIVE).display()));
    }
    match Command::new("rt").arg("lib").current_dir(&project).status() {
        Err(e) if e.kind() == io::ErrorKind::NotFound => {
            Err(format!("there is no {}, and no command `rt` on PATH to build it{instead}", folder.join(ARCHIVE).display()))
        }
        Err(e) => Err(format!("`rt lib` did not start: {e}{instead}")),
        Ok(status) if !status.success() => Err(format!("`rt lib` failed in {}: {status}{instead}", project.display())),
        Ok(_) => placed(&project.join(BUILT), &folder).ok_or_else(|| format!("`rt lib` left no {BUILT} in {}{instead}", project.display())),
    }
}

/// A copy of what was built, under the archive's name.
fn placed(built: &Path, folder: &Path) -> Option<PathBuf> {
    fs::create_dir_all(folder).ok()?;
    fs::copy(built, folder.join(ARCHIVE)).ok()?;
    found(folder)
}

fn found(folder: &Path) -> Option<PathBuf> {
    folder.join(ARCHIVE).is_file().then(|| folder.canonicalize().ok()).flatten()
}
