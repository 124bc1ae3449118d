//! Names the proved archive to the linker, and has it built first where it is missing or old.
//! Its code is for x86-64 processors that know SSE4.2 (x86-64-v2), as `rt` builds it.

use std::env;
use std::ffi::OsString;
use std::fs;
use std::io::{self, ErrorKind};
use std::path::{Path, PathBuf};
use std::process::{exit, Command};
use std::time::SystemTime;

/// The folder of the proved crate, where `rt lib` writes the archive.
const CRATE: &str = "crates/phone";
const ARCHIVE: &str = "crates/phone/out/libphone.a";

/// What a crate is built from; beside these `rt` writes its own files.
const SOURCES: [&str; 3] = ["src", "specs", "proofs"];

fn main() {
    if let Err(why) = link() {
        eprintln!("paired-rounding: {why}");
        exit(1);
    }
}

fn link() -> Result<(), String> {
    println!("cargo:rerun-if-changed=build.rs");
    println!("cargo:rerun-if-changed=../{ARCHIVE}");

    let arch = variable("CARGO_CFG_TARGET_ARCH")?;
    if arch != "x86_64" {
        return Err(format!(
            "libphone.a is built for x86_64 only, not for {}",
            arch.to_string_lossy()
        ));
    }

    let package = PathBuf::from(variable("CARGO_MANIFEST_DIR")?);
    let root = package
        .parent()
        .ok_or("the crate stands in no repository")?;
    let sources =
        sources(root).map_err(|error| format!("cannot look at {}: {error}", root.display()))?;
    for path in &sources {
        println!("cargo:rerun-if-changed={}", path.display());
    }

    let archive = root.join(ARCHIVE);
    if let Some(reason) = reason_to_build(&sources, &archive)? {
        println!("cargo:warning={ARCHIVE} {reason}: running `rt lib` in {CRATE}");
        build(root)?;
        if !archive.is_file() {
            return Err(format!(
                "`rt lib` in {CRATE} succeeded without writing {}",
                archive.display()
            ));
        }
    }

    let folder = archive.parent().unwrap_or(root);
    println!("cargo:rustc-link-search=native={}", folder.display());
    println!("cargo:rustc-link-lib=static=phone");
    Ok(())
}

fn variable(name: &str) -> Result<OsString, String> {
    env::var_os(name).ok_or_else(|| format!("cargo did not set {name}"))
}

/// The list of crates, and each crate's folders of sources.
fn sources(root: &Path) -> io::Result<Vec<PathBuf>> {
    let mut found = vec![root.join("crates.txt")];
    for entry in fs::read_dir(root.join("crates"))? {
        let folder = entry?.path();
        let parts = SOURCES.iter().map(|name| folder.join(name));
        found.extend(parts.filter(|path| path.is_dir()));
    }
    Ok(found)
}

/// Why the archive must be built, or nothing if it is newer than all its sources.
fn reason_to_build(sources: &[PathBuf], archive: &Path) -> Result<Option<&'static str>, String> {
    let built = match fs::metadata(archive).and_then(|data| data.modified()) {
        Ok(time) => time,
        Err(error) if error.kind() == ErrorKind::NotFound => return Ok(Some("is missing")),
        Err(error) => return Err(format!("cannot look at {}: {error}", archive.display())),
    };
    for path in sources {
        let changed =
            newest(path).map_err(|error| format!("cannot look at {}: {error}", path.display()))?;
        if built < changed {
            return Ok(Some("is older than its sources"));
        }
    }
    Ok(None)
}

/// The latest change of a file, or of a folder and all in it.
fn newest(path: &Path) -> io::Result<SystemTime> {
    let data = fs::metadata(path)?;
    let mut latest = data.modified()?;
    if data.is_dir() {
        for entry in fs::read_dir(path)? {
            latest = latest.max(newest(&entry?.path())?);
        }
    }
    Ok(latest)
}

/// Proves and builds the archive. What `rt` prints is shown only if it fails.
fn build(root: &Path) -> Result<(), String> {
    let folder = root.join(CRATE);
    let output = match Command::new("rt").arg("lib").current_dir(&folder).output() {
        Ok(output) => output,
        Err(error) if error.kind() == ErrorKind::NotFound => {
            return Err(format!(
                "`rt` is not on the PATH, and {ARCHIVE} must be built: put `rt` on the PATH, \
                 or run `rt lib` in {} and build this crate again",
                folder.display()
            ));
        }
        Err(error) => return Err(format!("cannot run `rt lib`: {error}")),
    };
    if !output.status.success() {
        return Err(format!(
            "`rt lib` in {} failed ({}):\n{}{}",
            folder.display(),
            output.status,
            String::from_utf8_lossy(&output.stdout),
            String::from_utf8_lossy(&output.stderr)
        ));
    }
    Ok(())
}
