//! A file: 32-bit little-endian words; first the number of words to a row and the number of rows, then the rows.

use crate::row::{Row, WORDS};
use std::path::Path;

/// The most bytes that the program reads of a file.
const MOST: usize = 65_536;

/// Writes the rows, and tells how many bytes the file has.
pub fn write(path: &Path, rows: &[Row]) -> std::io::Result<usize> {
    let header = [WORDS as u32, rows.len() as u32];
    let words = header.iter().chain(rows.iter().flatten());
    let bytes: Vec<u8> = words.flat_map(|word| word.to_le_bytes()).collect();
    assert!(bytes.len() <= MOST, "{} is too long", path.display());
    // A file that has these bytes keeps its date, so that nothing is proved again for it.
    if !std::fs::read(path).is_ok_and(|found| found == bytes) {
        std::fs::write(path, &bytes)?;
    }
    Ok(bytes.len())
}
