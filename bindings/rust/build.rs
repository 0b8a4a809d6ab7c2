//! Names the static library to the linker.

use std::env;
use std::path::{Path, PathBuf};
use std::process::Command;

fn main() {
    println!("cargo::rerun-if-env-changed=CIRONETOP_HOST");
    if let Err(message) = archive().and_then(|archive| link(&archive)) {
        println!("cargo::error={message}");
    }
}

/// The archive that `CIRONETOP_HOST` names, or else the one of this machine.
fn archive() -> Result<PathBuf, String> {
    if let Some(archive) = env::var_os("CIRONETOP_HOST") {
        return Ok(PathBuf::from(archive));
    }
    let manifest = PathBuf::from(env::var_os("CARGO_MANIFEST_DIR").expect("cargo sets it"));
    let tool = manifest.join("../../tools/library");
    let output = Command::new(&tool).arg("--path").output();
    match output {
        Ok(output) if output.status.success() => {
            Ok(PathBuf::from(String::from_utf8_lossy(&output.stdout).trim()))
        }
        _ => Err("CIRONETOP_HOST does not name the archive libhost.a, and tools/library \
                  does not know one for this machine."
            .into()),
    }
}

fn link(archive: &Path) -> Result<(), String> {
    println!("cargo::rerun-if-changed={}", archive.display());
    let wrong = || {
        format!("There is no archive libNAME.a at {}: tools/library makes it.", archive.display())
    };
    let place = archive.canonicalize().map_err(|_| wrong())?;
    let file = place.file_name().and_then(|name| name.to_str()).ok_or_else(wrong)?;
    let name = file.strip_prefix("lib").and_then(|rest| rest.strip_suffix(".a"));
    let folder = place.parent().ok_or_else(wrong)?;
    println!("cargo::rustc-link-search=native={}", folder.display());
    println!("cargo::rustc-link-lib=static={}", name.ok_or_else(wrong)?);
    Ok(())
}
