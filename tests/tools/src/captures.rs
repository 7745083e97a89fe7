//! Captures: files with lines `from=guest bytes=HEX` and `from=host bytes=HEX`.

use std::fs;
use std::path::{Path, PathBuf};

use crate::hex;

/// The files of the directory that have this extension, sorted.
pub fn files(directory: &Path, extension: &str) -> Result<Vec<PathBuf>, String> {
    let mut files = Vec::new();
    for entry in fs::read_dir(directory).map_err(|why| why.to_string())? {
        let path = entry.map_err(|why| why.to_string())?.path();
        if path.extension().is_some_and(|found| found == extension) {
            files.push(path);
        }
    }
    files.sort();
    Ok(files)
}

/// The name of a file without its extension.
pub fn name(path: &Path) -> String {
    let stem = path.file_stem().unwrap_or_default();
    stem.to_string_lossy().into_owned()
}

/// For each line of a capture whether the guest sends, and the bytes.
pub fn pieces(text: &str) -> impl Iterator<Item = Result<(bool, Vec<u8>), String>> + '_ {
    text.lines().map(|line| {
        let from_guest = line.strip_prefix("from=guest bytes=");
        let digits = from_guest.or_else(|| line.strip_prefix("from=host bytes="));
        let digits = digits.ok_or_else(|| format!("no line of a capture: {line}"))?;
        Ok((from_guest.is_some(), hex::read(digits)?))
    })
}
