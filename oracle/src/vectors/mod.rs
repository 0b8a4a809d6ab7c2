//! Pictures of real decoders, as their files tell them: planes of both stages, and single samples.

mod files;
mod pictures;
mod samples;

pub use pictures::{restorations, upscalings, Restoration, Upscaling};
pub use samples::{samples, Sample};

use crate::report::Report;
use std::env;
use std::path::{Path, PathBuf};

/// The folder that `CIRONETOP_VECTORS` names, or `../../shared/vectors` beside this package.
fn folder() -> PathBuf {
    match env::var_os("CIRONETOP_VECTORS") {
        Some(folder) => PathBuf::from(folder),
        None => Path::new(env!("CARGO_MANIFEST_DIR")).join("../../shared/vectors"),
    }
}

/// The folder, if it is there. Where `CI` is `true` it has to be.
fn at_hand(report: &mut Report) -> Option<PathBuf> {
    let folder = folder();
    if folder.is_dir() {
        return Some(folder);
    }
    let shown = folder.display();
    let message = format!(
        "the decoders' pictures are not at hand ({shown}): CIRONETOP_VECTORS names their folder"
    );
    if env::var_os("CI").is_some_and(|set| set == "true") {
        report.differs(&message);
    } else {
        eprintln!("{message}");
    }
    None
}
