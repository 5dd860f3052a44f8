//! The stored vectors: one file a function, records of fixed length, words big-endian.

use crate::table::Function;
use std::path::Path;

/// The words of a record: what the function takes, then what it gives.
pub fn read(folder: &Path, function: &Function) -> Result<Vec<Vec<u64>>, String> {
    let path = folder.join(format!("{}.bin", function.name));
    let bytes = std::fs::read(&path).map_err(|e| format!("{}: {e}", path.display()))?;
    let size = 8 * (function.takes + function.gives);
    if bytes.len() % size != 0 {
        return Err(format!("{}: not a row of records of {size} bytes", path.display()));
    }
    Ok(bytes
        .chunks(size)
        .map(|record| {
            record.chunks(8).map(|word| u64::from_be_bytes(word.try_into().unwrap())).collect()
        })
        .collect())
}

pub fn write(folder: &Path, function: &Function, records: &[Vec<u64>]) -> Result<usize, String> {
    let path = folder.join(format!("{}.bin", function.name));
    let bytes: Vec<u8> = records.iter().flatten().flat_map(|word| word.to_be_bytes()).collect();
    std::fs::write(&path, &bytes).map_err(|e| format!("{}: {e}", path.display()))?;
    Ok(bytes.len())
}
