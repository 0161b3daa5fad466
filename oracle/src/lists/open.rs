//! open.bin: small files with document 01's number for each. README.md has the layout of its records.

use crate::file;
use crate::known::{self, KNOWN};

/// The number that is written is document 01's as read by hand; the rules must say the same.
pub fn records() -> Vec<(u32, Vec<u8>)> {
    let mut out: Vec<(u32, Vec<u8>)> = file::kinds().into_iter().map(|file| (0, file)).collect();
    out.extend(file::cases());
    let differences = smallest(&out);
    out.extend(differences);
    for (i, (number, file)) in out.iter().enumerate() {
        assert_eq!(known::number(file, &[]), *number, "record {i}");
    }
    out
}

/// The smallest file for each known difference, and the smallest that a side opens, made from these.
fn smallest(files: &[(u32, Vec<u8>)]) -> Vec<(u32, Vec<u8>)> {
    let mut out = Vec::new();
    for i in 0..KNOWN.len() {
        for opens in [false, true] {
            let shows = files.iter().find(|(_, file)| known::shows(i, file, opens));
            if let Some((_, file)) = shows {
                let file = known::small(i, file.clone(), opens);
                out.push((known::number(&file, &[]), file));
            }
        }
    }
    out
}

/// How long a record is: the file's length, the number, and room for the file.
const RECORD: usize = 1024;

pub fn bytes(records: &[(u32, Vec<u8>)]) -> Vec<u8> {
    let mut out = Vec::new();
    for (i, (number, file)) in records.iter().enumerate() {
        out.extend_from_slice(&(file.len() as u32).to_le_bytes());
        out.extend_from_slice(&number.to_le_bytes());
        out.extend_from_slice(file);
        assert!(out.len() <= (i + 1) * RECORD, "record {i} is too long");
        out.resize((i + 1) * RECORD, 0);
    }
    out
}
