//! What may be tried in the place of a file, when a small one is looked for. Sizes, offsets and sum follow a cut.

use super::*;

/// A way to make a file shorter.
type Way = fn(&[u8]) -> Vec<Vec<u8>>;

const WAYS: [Way; 8] = [
    without_entries,
    transplants,
    shorter_sections,
    |file| cuts(file, 256),
    |file| cuts(file, 64),
    |file| cuts(file, 16),
    |file| cuts(file, 4),
    |file| cuts(file, 1),
];

/// Simpler files, the most daring first. The files of one way are made when those before it are used up.
pub fn files(file: &[u8]) -> Box<dyn Iterator<Item = Vec<u8>>> {
    if file.len() < 68 {
        return Box::new(crate::bytes::simpler(file).into_iter());
    }
    let (file, same) = (file.to_vec(), file.to_vec());
    let shorter = WAYS.into_iter().flat_map(move |way| {
        let mut made = way(&file);
        made.retain(|other| other.len() < file.len());
        made
    });
    Box::new(shorter.chain([same].into_iter().flat_map(|file| lower(&file))))
}

fn without_entries(file: &[u8]) -> Vec<Vec<u8>> {
    (0..entry_count(file)).map(|i| without_entry(file, i)).collect()
}

fn shorter_sections(file: &[u8]) -> Vec<Vec<u8>> {
    (0..entry_count(file)).flat_map(|i| shorter_section(file, i)).collect()
}

/// So many bytes left out behind the table, anywhere.
fn cuts(file: &[u8], length: usize) -> Vec<Vec<u8>> {
    let last = file.len() - 4;
    let places = (64 + 16 * entry_count(file)..last).step_by(length.min(4));
    places.filter(|at| at + length <= last).map(|at| cut(file, at, length)).collect()
}

/// Bytes left out; entries behind them move up, and the section around them shrinks.
fn cut(file: &[u8], at: usize, length: usize) -> Vec<u8> {
    let mut out = file.to_vec();
    for (i, [_, off, len]) in entries(file).into_iter().enumerate() {
        let place = 64 + 16 * i;
        let (off, len) = (off as usize, len as usize);
        if off >= at + length {
            put(&mut out, place + 4, (off - length) as u32);
        } else if off <= at && at + length <= off + len {
            put(&mut out, place + 8, (len - length) as u32);
        }
    }
    out.drain(at..at + length);
    seal(&mut out);
    out
}

fn without_entry(file: &[u8], i: usize) -> Vec<u8> {
    let mut out = cut(file, 64 + 16 * i, 16);
    let count = word(file, 20);
    put(&mut out, 20, count.wrapping_sub(1));
    seal(&mut out);
    out
}

/// A section cut by a record, from its start or its end.
fn shorter_section(file: &[u8], i: usize) -> Vec<Vec<u8>> {
    let [_, off, len] = entries(file)[i].map(|n| n as usize);
    let fits = |n: usize| n > 0 && n <= len && off + len <= file.len() - 4;
    let starts = [len, 44, 28, 24, 16, 4, 1].into_iter().filter(|&n| fits(n));
    starts.flat_map(|n| [cut(file, off, n), cut(file, off + len - n, n)]).collect()
}

/// The least files with one or two sections of this one in the place of their own, and with this one's header.
fn transplants(file: &[u8]) -> Vec<Vec<u8>> {
    let mut out = Vec::new();
    let own: Vec<Part> = entries(file)
        .into_iter()
        .filter_map(|[typ, off, len]| {
            let bytes = file.get(off as usize..(off as usize).checked_add(len as usize)?)?;
            Some(Part { typ, bytes: bytes.to_vec(), gap: 0 })
        })
        .collect();
    for grid in [false, true] {
        let least = least(grid);
        for i in 0..own.len() {
            for j in i..own.len() {
                let mut draft = least.clone();
                for part in [&own[i], &own[j]] {
                    match draft.parts.iter_mut().find(|p| p.typ == part.typ) {
                        Some(place) => *place = part.clone(),
                        None => draft.parts.push(part.clone()),
                    }
                }
                // What need not end on a word stands last.
                draft.parts.sort_by_key(|part| part.bytes.len() % 4 != 0);
                draft.order = (0..draft.parts.len()).collect();
                out.push(draft.lay());
                draft.zones = word(file, 40);
                out.push(draft.lay());
            }
        }
    }
    out
}

/// The same length, but a byte made less.
fn lower(file: &[u8]) -> Vec<Vec<u8>> {
    let mut out = Vec::new();
    for at in 0..file.len() - 4 {
        for value in [0, file[at] / 2, file[at].saturating_sub(1)] {
            if value < file[at] && !(16..20).contains(&at) {
                let mut with = file.to_vec();
                with[at] = value;
                repair(&mut with);
                out.push(with);
            }
        }
    }
    out
}
