//! Files of records: decompressed, cut into sections.

use std::fs;
use std::path::{Path, PathBuf};
use std::process::Command;

const BY_PYTHON: &str = "import lzma, sys; sys.stdout.buffer.write(lzma.open(sys.argv[1]).read())";

/// The files of a folder that are such, by name.
pub fn compressed(folder: &Path) -> Result<Vec<PathBuf>, String> {
    let entries = fs::read_dir(folder).map_err(|error| format!("{}: {error}", folder.display()))?;
    let mut files: Vec<PathBuf> = entries
        .filter_map(|entry| entry.ok().map(|entry| entry.path()))
        .filter(|path| path.to_string_lossy().ends_with(".vec.xz"))
        .collect();
    files.sort();
    Ok(files)
}

/// By `xz`, or by Python where there is no `xz`.
pub fn decompressed(file: &Path) -> Result<Vec<u8>, String> {
    let by_xz = Command::new("xz").arg("-dc").arg(file).output();
    let by_any =
        by_xz.or_else(|_| Command::new("python3").args(["-c", BY_PYTHON]).arg(file).output());
    match by_any {
        Ok(output) if output.status.success() => Ok(output.stdout),
        Ok(output) => {
            Err(format!("{}: {}", file.display(), String::from_utf8_lossy(&output.stderr)))
        }
        Err(error) => Err(format!("neither xz nor python3 can be run: {error}")),
    }
}

/// Bytes that are read from front to back.
pub struct Reader<'a>(pub &'a [u8]);

impl Reader<'_> {
    pub fn is_at_end(&self) -> bool {
        self.0.is_empty()
    }

    pub fn magic(&mut self) -> [u8; 4] {
        std::array::from_fn(|_| self.byte() as u8)
    }

    /// The numbers of the next section and their size in bits.
    pub fn section(&mut self) -> (Vec<i32>, u32) {
        let count = (0..4).map(|place| self.byte() << (8 * place)).sum::<usize>();
        let size = self.byte();
        let numbers = (0..count)
            .map(|_| (0..size).map(|place| self.byte() << (8 * place)).sum::<usize>() as i32)
            .collect();
        (numbers, 8 * size as u32)
    }

    fn byte(&mut self) -> usize {
        let (first, rest) = self.0.split_first().expect("a record ends where its sections do");
        self.0 = rest;
        usize::from(*first)
    }
}
