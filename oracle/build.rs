//! Finds the reference, checks that it is the expected text and names it to the compiler; with the
//! feature `host` names the static library to the linker.

use std::env;
use std::fs;
use std::path::{Path, PathBuf};

#[path = "src/sha256.rs"]
mod sha256;

/// The one place of the expected digests: a line per file that is built.
const EXPECTED: &str = include_str!("reference.sha256");

fn main() {
    println!("cargo::rerun-if-env-changed=CIRONETOP_REFERENCE");
    println!("cargo::rerun-if-changed=reference.sha256");
    println!("cargo::rerun-if-changed=src/sha256.rs");
    match modules(&reference_folder()) {
        Ok(text) => {
            let out = PathBuf::from(env::var_os("OUT_DIR").expect("cargo sets OUT_DIR"));
            fs::write(out.join("reference.rs"), text).expect("the output folder is writable");
        }
        Err(message) => println!("cargo::error={message}"),
    }
    if env::var_os("CARGO_FEATURE_HOST").is_some() {
        if let Err(message) = link_library(&library()) {
            println!("cargo::error={message}");
        }
    }
}

/// The archive that `CIRONETOP_HOST` names, or else the one that `tools/library` makes for the
/// target.
fn library() -> PathBuf {
    println!("cargo::rerun-if-env-changed=CIRONETOP_HOST");
    let manifest = PathBuf::from(env::var_os("CARGO_MANIFEST_DIR").expect("cargo sets it"));
    match env::var_os("CIRONETOP_HOST") {
        Some(archive) => PathBuf::from(archive),
        None if target() == "aarch64" => manifest.join("../target/native/libhost.a"),
        None => manifest.join("../target/staticlib/libhost.a"),
    }
}

fn target() -> String {
    env::var("CARGO_CFG_TARGET_ARCH").expect("cargo sets it")
}

fn link_library(archive: &Path) -> Result<(), String> {
    println!("cargo::rerun-if-changed={}", archive.display());
    if !["x86_64", "aarch64"].contains(&target().as_str()) {
        return Err("The static library is for x86-64, and by tools/native for aarch64.".into());
    }
    let wrong =
        || format!("There is no archive libNAME.a at {}: tools/host makes it.", archive.display());
    let place = archive.canonicalize().map_err(|_| wrong())?;
    let file = place.file_name().and_then(|name| name.to_str()).ok_or_else(wrong)?;
    let name = file.strip_prefix("lib").and_then(|rest| rest.strip_suffix(".a"));
    let folder = place.parent().ok_or_else(wrong)?;
    println!("cargo::rustc-link-search=native={}", folder.display());
    println!("cargo::rustc-link-lib=static={}", name.ok_or_else(wrong)?);
    Ok(())
}

fn reference_folder() -> PathBuf {
    let manifest = PathBuf::from(env::var_os("CARGO_MANIFEST_DIR").expect("cargo sets it"));
    match env::var_os("CIRONETOP_REFERENCE") {
        Some(folder) => PathBuf::from(folder),
        None => manifest.join("../../shared/docs/src"),
    }
}

/// The text of the module declarations, or one paragraph on what is missing.
fn modules(folder: &Path) -> Result<String, String> {
    let mut text = String::new();
    for line in EXPECTED.lines() {
        let (digest, name) = line.split_once("  ").expect("a digest, two spaces, a name");
        let file = checked(folder, name, digest)?;
        let module = name.trim_end_matches(".rs");
        println!("cargo::rerun-if-changed={}", file.display());
        text += "#[allow(dead_code, clippy::all)]\n";
        text += &format!("#[path = {file:?}]\npub mod {module};\n");
    }
    Ok(text)
}

fn checked(folder: &Path, name: &str, digest: &str) -> Result<PathBuf, String> {
    let file = folder.join(name);
    let bytes = fs::read(&file)
        .map_err(|error| explain(folder, name, &format!("could not be read ({error})")))?;
    let found = sha256::hex_digest(&bytes);
    if found != digest {
        let what = format!("has the SHA-256 digest {found}, and {digest} is expected");
        return Err(explain(folder, name, &what));
    }
    file.canonicalize().map_err(|error| explain(folder, name, &error.to_string()))
}

fn explain(folder: &Path, name: &str, what: &str) -> String {
    format!(
        "The oracle builds the reference Rust unchanged, and {name} in the folder {} {what}. \
         Set CIRONETOP_REFERENCE to the folder that holds the reference sources; \
         reference.sha256 lists the files that are needed and their digests.",
        folder.display()
    )
}
