//! The two exports of a question that can meet a broken chunk: its answer, and the place beside it (document 02, 2026-06).

use super::exports::Exports;
use super::opening::{CHANGED, unless_changed};
use super::striped::Asked as With;
use crate::voice::Question;

/// How a question is put: with a record, with a record and stripes' numbers, or to a file that is opened for it.
#[derive(Debug, Clone, Copy, PartialEq)]
pub enum Way {
    Plain,
    Striped,
    Opening,
}

#[derive(Debug, Clone, Copy)]
pub struct Asked {
    pub way: Way,
    pub question: Question,
}

/// What the exports of a question say: an answer's number or -1000 - n, and a place or -1.
#[derive(Debug, Clone, Copy, PartialEq)]
pub struct Codes {
    pub answer: i64,
    pub place: i64,
}

/// What lent numbers hold before. Neither a coordinate nor a zone.
const GUARD: u32 = 0xa5a5_a5a5;
/// So many are lent behind the room, to see that they stay.
const BEHIND: usize = 8;

/// Lends so many numbers to the first export, which may write as many as it says, a few at a time; then to the second, which may write none.
fn twice<T: Copy + PartialEq>(
    (room, guard, each): (usize, T, usize),
    first: impl FnOnce(*mut T) -> i64,
    second: impl FnOnce(*const T) -> i64,
) -> Result<Codes, String> {
    let mut lent = vec![guard; room + BEHIND];
    let answer = first(lent.as_mut_ptr());
    let written = each * answer.max(0) as usize;
    if unless_changed(answer, &lent, written, guard) == Err(CHANGED) {
        return Err("the answer's export changed what it may not".to_string());
    }
    let before = lent.clone();
    let place = second(lent.as_mut_ptr().cast_const());
    if lent != before {
        return Err("the place's export changed what is lent".to_string());
    }
    Ok(Codes { answer, place })
}

/// What the port says, if it changes nothing that it may not. None where no export takes the question.
pub fn said(port: &Exports, with: With, asked: Asked) -> Option<Result<Codes, String>> {
    match asked.way {
        Way::Plain => plain(port, with, asked.question),
        Way::Striped => striped(port, with, asked.question),
        Way::Opening => opening(port, with.file, asked.question),
    }
}

fn plain(port: &Exports, with: With, question: Question) -> Option<Result<Codes, String>> {
    let (r, size, _, _, f, length) = with.parts();
    Some(match question {
        Question::Decode(chunk, room) => {
            let room = room as usize;
            twice(
                (room, GUARD as i32, 2),
                |out| unsafe { (port.decode)(r, size, f, length, chunk, out, room) },
                |out| unsafe { (port.decode_place)(r, size, f, length, chunk, out, room) },
            )
        }
        Question::Contains(zone, x, y) => unsafe {
            let answer = (port.contains)(r, size, f, length, zone, x, y).into();
            let place = (port.contains_place)(r, size, f, length, zone, x, y);
            Ok(Codes { answer, place })
        },
        Question::Lookup(lng, lat) => unsafe {
            let answer = (port.ask)(r, size, f, length, lng, lat);
            let place = (port.ask_place)(r, size, f, length, lng, lat);
            Ok(Codes { answer, place })
        },
        Question::LookupInto(lng, lat, places) => {
            let room = places as usize;
            twice(
                (room, GUARD, 1),
                |to| unsafe { (port.ask_all)(r, size, f, length, lng, lat, to, room) },
                |to| unsafe { (port.ask_all_place)(r, size, f, length, lng, lat, to, room) },
            )
        }
        _ => return None,
    })
}

fn striped(port: &Exports, with: With, question: Question) -> Option<Result<Codes, String>> {
    let (r, size, n, count, f, length) = with.parts();
    let Exports { contains_striped, ask_striped, ask_all_striped, .. } = *port;
    let Exports { contains_striped_place, ask_striped_place, ask_all_striped_place, .. } = *port;
    Some(match question {
        Question::Contains(zone, x, y) => unsafe {
            let answer = contains_striped(r, size, n, count, f, length, zone, x, y).into();
            let place = contains_striped_place(r, size, n, count, f, length, zone, x, y);
            Ok(Codes { answer, place })
        },
        Question::Lookup(lng, lat) => unsafe {
            let answer = ask_striped(r, size, n, count, f, length, lng, lat);
            let place = ask_striped_place(r, size, n, count, f, length, lng, lat);
            Ok(Codes { answer, place })
        },
        Question::LookupInto(lng, lat, places) => {
            let room = places as usize;
            twice(
                (room, GUARD, 1),
                |to| unsafe { ask_all_striped(r, size, n, count, f, length, lng, lat, to, room) },
                |to| unsafe {
                    ask_all_striped_place(r, size, n, count, f, length, lng, lat, to, room)
                },
            )
        }
        _ => return None,
    })
}

fn opening(port: &Exports, file: &[u8], question: Question) -> Option<Result<Codes, String>> {
    let Question::Lookup(lng, lat) = question else { return None };
    let (f, length) = (file.as_ptr(), file.len());
    let answer = unsafe { (port.lookup)(f, length, lng, lat) }.into();
    let place = unsafe { (port.lookup_place)(f, length, lng, lat) };
    Some(Ok(Codes { answer, place }))
}
