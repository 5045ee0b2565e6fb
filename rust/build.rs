//! Finds the library's static archive for the linker: in the folder LINTELRYE_ARCHIVE_DIR where that is set, otherwise where tools/archive of this repository
//! writes it, target/archive/x86_64 or target/archive/aarch64.
//!
//! It proves and builds nothing. Where there is no archive that fits, it says why in a warning and names no folder: `cargo check`, `cargo doc` and editors need
//! none, and a build then stops at the missing library `lintelrye_c`.
use std::path::{Path, PathBuf};
use std::time::SystemTime;
use std::{env, fs};

const ARCHIVE: &str = "liblintelrye_c.a";

/// Returns what cargo or the caller says in a variable; empty where nothing is said.
fn said(variable: &str) -> String {
    env::var(variable).unwrap_or_default()
}

/// Returns the number that an object file has for the target's processor (ELF's e_machine), if there is an archive for the target.
fn machine(arch: &str) -> Result<u8, String> {
    let elf = !matches!(said("CARGO_CFG_TARGET_OS").as_str(), "windows" | "macos" | "ios" | "uefi" | "wasi");
    let fits = elf && said("CARGO_CFG_TARGET_POINTER_WIDTH") == "64" && said("CARGO_CFG_TARGET_ENDIAN") == "little";
    match arch {
        "x86_64" if fits => Ok(62),
        "aarch64" if fits => Ok(183),
        _ => Err(format!("there are archives for x86-64 and little-endian aarch64 on ELF systems such as Linux, and none for {}", said("TARGET"))),
    }
}

/// Reports whether a file, or a file in a folder, is newer than a time.
fn is_newer(path: &Path, time: SystemTime) -> bool {
    match fs::read_dir(path) {
        Ok(entries) => entries.flatten().any(|entry| is_newer(&entry.path(), time)),
        Err(_) => fs::metadata(path).and_then(|file| file.modified()).map_or(false, |changed| changed > time),
    }
}

/// Returns what the archive is made of: the list of crates, and each crate's code, definitions and proofs. What rt keeps beside them in out/ is no source.
fn sources(root: &Path) -> Vec<PathBuf> {
    let crates = fs::read_dir(root.join("crates")).into_iter().flatten().flatten().map(|entry| entry.path());
    let parts = crates.flat_map(|folder| ["src", "specs", "proofs"].map(|part| folder.join(part)));
    std::iter::once(root.join("crates.txt")).chain(parts.filter(|part| part.is_dir())).collect()
}

/// Returns the folder that has to have the archive, and what makes it; or why not, where the archive is older than the library's sources.
fn folder(arch: &str) -> Result<(PathBuf, String), String> {
    let given = said("LINTELRYE_ARCHIVE_DIR");
    if !given.is_empty() {
        let folder = PathBuf::from(&given);
        let hint = format!("LINTELRYE_ARCHIVE_DIR must name the folder of {}", ARCHIVE);
        return if folder.is_absolute() {
            Ok((folder, hint))
        } else {
            Err(format!("LINTELRYE_ARCHIVE_DIR is {}: give it as an absolute path", given))
        };
    }
    let root = PathBuf::from(said("CARGO_MANIFEST_DIR")).join("..");
    let root = root.canonicalize().unwrap_or(root);
    let script = root.join("tools").join("archive");
    if !script.is_file() {
        return Err(format!("LINTELRYE_ARCHIVE_DIR is not set to the folder of {}, and {} is not there to make one", ARCHIVE, script.display()));
    }
    let folder = root.join("target").join("archive").join(arch);
    let hint = format!("run {} --target {} (long where nothing is proved yet), or set LINTELRYE_ARCHIVE_DIR", script.display(), arch);
    let sources = sources(&root);
    for source in &sources {
        println!("cargo:rerun-if-changed={}", source.display());
    }
    match fs::metadata(folder.join(ARCHIVE)).and_then(|file| file.modified()) {
        Ok(made) if sources.iter().any(|source| is_newer(source, made)) => {
            Err(format!("{} is older than the library's sources: {}", folder.join(ARCHIVE).display(), hint))
        }
        _ => Ok((folder, hint)),
    }
}

/// Reports whether bytes hold a sequence of bytes.
fn has(bytes: &[u8], part: &[u8]) -> bool {
    bytes.windows(part.len()).any(|window| window == part)
}

/// Finds the folder of an archive for the target and of this crate's version; or says why there is none.
fn find() -> Result<PathBuf, String> {
    let arch = said("CARGO_CFG_TARGET_ARCH");
    let machine = machine(&arch)?;
    let (folder, hint) = folder(&arch)?;
    let archive = folder.join(ARCHIVE);
    println!("cargo:rerun-if-changed={}", archive.display());
    let bytes = fs::read(&archive).map_err(|error| format!("{}: {}; {}", archive.display(), error, hint))?;
    let object = bytes.windows(20).find(|window| window.starts_with(b"\x7FELF"));
    if !bytes.starts_with(b"!<arch>\n") || object.map_or(true, |head| head[18] != machine) {
        return Err(format!("{} is no archive for {}; {}", archive.display(), arch, hint));
    }
    let version = said("CARGO_PKG_VERSION");
    if !has(&bytes, format!("lintelrye_version_{}\0", version.replace('.', "_")).as_bytes()) {
        return Err(format!("{} is not of this crate's version, {}; {}", archive.display(), version, hint));
    }
    Ok(folder)
}

fn main() {
    println!("cargo:rerun-if-changed=build.rs");
    println!("cargo:rerun-if-env-changed=LINTELRYE_ARCHIVE_DIR");
    match find() {
        Ok(folder) => println!("cargo:rustc-link-search=native={}", folder.display()),
        Err(why) => println!("cargo:warning=there is no library to link: {}", why),
    }
}
