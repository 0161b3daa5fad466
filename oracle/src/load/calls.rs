//! One input through every export. What is wrong with an answer, or with lent memory after it, is told.

use super::Tally;
use super::fence::PAGE;
use super::fence::{Lent, Room};
use super::inputs::NUMBERS;
use super::inputs::{Input, LONGEST, SHORT};
use super::watch;
use crate::port::exports::{Export, Exports, NAMES};
use crate::port::opening::SIZE;
use crate::scene::Scene;

/// How many bytes an entry of a journal has.
const ENTRY: usize = 16;

pub struct Caller {
    exports: Exports,
    file: Lent,
    record: Lent,
    part: Lent,
    numbers: Lent,
    /// What a place's export is lent in the place of a room: it may not write there.
    unwritten: Lent,
    rooms: [Room; 6],
    pub tally: Tally,
}

type Slice = (*const u8, usize);

/// An answer, or None where it was refused.
type Answer = Option<i64>;

/// What containment and the lookups say, the bytes of the listed zones, and the place of each.
#[derive(Debug, PartialEq)]
struct Walked {
    is: i32,
    found: i64,
    zones: i64,
    list: Vec<u8>,
    places: [i64; 3],
}

fn hold(holds: bool, what: impl FnOnce() -> String) -> Result<(), String> {
    if holds { Ok(()) } else { Err(what()) }
}

impl Caller {
    pub fn new(exports: Exports) -> Self {
        Self {
            exports,
            file: Lent::new(LONGEST),
            record: Lent::new(SHORT),
            part: Lent::new(SHORT),
            numbers: Lent::new(4 * NUMBERS),
            unwritten: Lent::new(PAGE),
            rooms: [(); 6].map(|()| Room::new()),
            tally: Tally::new(),
        }
    }

    pub fn put(&mut self, input: &Input) -> Result<(), String> {
        let file = self.file.put(&input.file, input.at_end[0]);
        let opened = self.opening(input, file)?;
        let record = match (&input.record, &opened) {
            (Some(record), _) | (None, Some(record)) => record.as_slice(),
            (None, None) => &[0; SIZE],
        };
        let record = self.record.put(record, input.at_end[1]);
        self.names(input, record, file)?;
        self.candidates(input, record, file)?;
        self.decodes(input, record, file)?;
        let walked = self.walks(input, record, file)?;
        self.stripes(input, record, file, &walked)?;
        self.journal(input, record, file, walked.is)?;
        let part = self.part.put(&input.part, input.at_end[2]);
        self.parts(input, part)
    }

    /// Counts a call that is about to be made.
    fn call(&mut self, export: Export) -> Exports {
        watch::call(export as usize);
        self.tally.calls[export as usize] += 1;
        self.exports
    }

    /// A code from `first` to `last` answers; -1001 to -1047 refuses, -1048 only where a zone's text is asked for, -1049 only where stripes
    /// are, -1050 only by a journal.
    fn said(&mut self, export: Export, code: i64, first: i64, last: i64) -> Result<Answer, String> {
        if (first..=last).contains(&code) {
            return Ok(Some(code));
        }
        let last = match NAMES[export as usize] {
            name if name.starts_with("tzb_map") => -1048,
            name if name.starts_with("tzb_stripes") => -1049,
            name if name.starts_with("tzb_journal") => -1050,
            _ => -1047,
        };
        let refuses = (last..=-1001).contains(&code);
        hold(refuses, || format!("{code} is no answer and no refusal"))?;
        self.tally.refused[export as usize][(-1000 - code) as usize] += 1;
        Ok(None)
    }

    /// The place beside a code: one of the file, or its end, exactly for 38 to 43. There 39 and 40 are said again, and 43 is about a byte.
    fn place(
        &mut self,
        export: Export,
        code: i64,
        place: i64,
        (f, length): Slice,
    ) -> Result<i64, String> {
        let last = length as i64 - i64::from(code == -1043);
        let again = |at: i64| unsafe { (self.exports.number_length)(f, length, at as usize) };
        let may = match code {
            -1043..=-1038 if !(0..=last).contains(&place) => false,
            -1040 | -1039 => i64::from(again(place)) == code,
            -1043..=-1038 => true,
            _ => place == -1,
        };
        hold(may, || format!("the place {place}, where the answer is {code}"))?;
        self.tally.placed[export as usize] += u64::from(place >= 0);
        Ok(place)
    }

    /// So many numbers that may be read alone.
    fn unwritten(&mut self, count: usize, at_end: bool, guard: u64) -> *const u8 {
        let bytes: Vec<u8> = guard.to_le_bytes().into_iter().cycle().take(4 * count).collect();
        self.unwritten.put(&bytes, at_end).0
    }

    /// What opens the file. The record that was written, if one was.
    fn opening(&mut self, input: &Input, (f, length): Slice) -> Result<Option<Vec<u8>>, String> {
        let Input { lng, lat, guard, .. } = *input;
        let room = input.rooms[0];
        let lent = self.rooms[0].lend(room, input.at_end[3], guard)?;
        let code = unsafe { (self.call(Export::Open).open)(f, length, lent, room) };
        let said = self.said(Export::Open, code.into(), 0, 0)?;
        hold(said.is_none() || room >= SIZE, || "opened without room".to_string())?;
        let record = self.rooms[0].take(if said.is_some() { SIZE } else { 0 })?;
        let refused = said.is_none() && code != -1046;
        let agrees = |other: i32, otherwise: bool| {
            let may = if refused { other == code } else { otherwise };
            hold(may, || format!("{other}, where tzb_open says {code}"))
        };
        let zone = unsafe { (self.call(Export::Lookup).lookup)(f, length, lng, lat) };
        self.said(Export::Lookup, zone.into(), -1, i32::MAX.into())?;
        agrees(zone, zone > -1000 || zone <= -1032)?;
        let place = unsafe { (self.call(Export::LookupPlace).lookup_place)(f, length, lng, lat) };
        self.place(Export::LookupPlace, zone.into(), place, (f, length))?;
        let check = unsafe { (self.call(Export::FullCheck).full_check)(f, length) };
        self.said(Export::FullCheck, check.into(), 0, 0)?;
        agrees(check, check == 0 || check == -1047)?;
        let rule = unsafe { (self.call(Export::FullCheckRule).full_check_rule)(f, length) };
        let rules = if check == -1047 { 2..=6 } else { 0..=0 };
        hold(rules.contains(&rule), || format!("rule {rule}, where the full check says {check}"))?;
        self.maps(input, (f, length), check.into())?;
        Ok(said.map(|_| record))
    }

    /// A zone's length, then its text. The full check's refusal comes first; 46 comes last, and never without room.
    fn maps(&mut self, input: &Input, (f, length): Slice, check: i64) -> Result<(), String> {
        let (zone, guard) = (input.zone, input.guard);
        let long = unsafe { (self.call(Export::MapLength).map_length)(f, length, zone) };
        let said = self.said(Export::MapLength, long, 1, i64::MAX)?;
        let may =
            if check < 0 { long == check } else { long > 0 || [-1045, -1048].contains(&long) };
        hold(may, || format!("{long}, where the full check says {check}"))?;

        // The guard chooses the room: none, a byte short, just enough, all there is.
        let needed = said.map_or(PAGE, |long| PAGE.min(long as usize));
        let room = [0, needed - 1, needed, PAGE][guard as usize % 4];
        let lent = self.rooms[4].lend(room, input.at_end[5], guard)?;
        let code = unsafe { (self.call(Export::Map).map)(f, length, zone, lent, room) };
        let written = self.said(Export::Map, code, 1, room as i64)?;
        let text = self.rooms[4].take(written.unwrap_or(0) as usize)?;
        let is_text = |text: &[u8]| {
            text.starts_with(b"{\"type\":\"MultiPolygon\",\"coordinates\":[[[[")
                && text.ends_with(b"]]]]}")
        };
        let may = match said {
            None => code == long,
            Some(_) if (room as i64) < long => code == -1046,
            Some(_) => code == long && is_text(&text),
        };
        hold(may, || format!("{code} with room for {room}, where the length is {long}"))
    }

    fn names(&mut self, input: &Input, (r, size): Slice, (f, length): Slice) -> Result<(), String> {
        let count = unsafe { (self.call(Export::ZoneCount).zone_count)(r, size) };
        self.said(Export::ZoneCount, count, 0, u32::MAX.into())?;
        let zone = input.zone;
        let last = length as i64;
        let start = unsafe { (self.call(Export::NameStart).name_start)(r, size, f, length, zone) };
        let first = self.said(Export::NameStart, start, 0, last)?;
        let end = unsafe { (self.call(Export::NameEnd).name_end)(r, size, f, length, zone) };
        self.said(Export::NameEnd, end, first.unwrap_or(0), last)?;
        hold(first.is_some() || end == start, || format!("{end}, where the start is {start}"))?;

        let room = input.rooms[2] % 4;
        let lent = self.rooms[3].lend(8 * room, input.at_end[4], input.guard)?.cast();
        let code = unsafe { (self.call(Export::Name).name)(r, size, f, length, zone, lent, room) };
        let said = self.said(Export::Name, code.into(), 0, 0)?;
        let ends = self.rooms[3].take(if said.is_some() { 16 } else { 0 })?;
        let may = match first {
            None => i64::from(code) == start,
            Some(_) if room < 2 => code == -1046,
            Some(_) => ends == [start.to_le_bytes(), end.to_le_bytes()].concat(),
        };
        hold(may, || format!("both ends are {code}, {ends:?}; apart {start} and {end}"))
    }

    fn candidates(
        &mut self,
        input: &Input,
        (r, size): Slice,
        (f, length): Slice,
    ) -> Result<(), String> {
        let Input { lng, lat, place, .. } = *input;
        let code = unsafe { (self.call(Export::Choice).choice)(r, size, f, length, lng, lat) };
        let choice = self.said(Export::Choice, code.into(), 0, 2)?;
        let listed = unsafe { (self.call(Export::Listed).listed)(r, size, f, length, lng, lat) };
        let may = match choice {
            Some(2) => listed >> 32 < 16 && listed & 0xffff_ffff < 1 << 28,
            Some(1) => listed <= u32::MAX.into(),
            _ => listed == 0,
        };
        hold(may, || format!("{listed}, where tzb_choice says {code}"))?;
        let export = self.call(Export::Candidate).candidate;
        let zone = unsafe { export(r, size, f, length, place) };
        self.said(Export::Candidate, zone, 0, u16::MAX.into())?;
        Ok(())
    }

    fn decodes(
        &mut self,
        input: &Input,
        (r, size): Slice,
        (f, length): Slice,
    ) -> Result<(), String> {
        let Input { chunk, guard, rooms: [_, room, _], .. } = *input;
        let out = self.rooms[1].lend(4 * room, input.at_end[4], guard)?.cast();
        let export = self.call(Export::Decode).decode;
        let points = unsafe { export(r, size, f, length, chunk, out, room) };
        let said = self.said(Export::Decode, points, 0, room as i64 / 2)?;
        self.rooms[1].take(8 * said.unwrap_or(0) as usize)?;
        let out = self.unwritten(room, input.at_end[4], guard).cast();
        let export = self.call(Export::DecodePlace).decode_place;
        let place = unsafe { export(r, size, f, length, chunk, out, room) };
        self.place(Export::DecodePlace, points, place, (f, length))?;
        Ok(())
    }

    fn walks(
        &mut self,
        input: &Input,
        (r, size): Slice,
        (f, length): Slice,
    ) -> Result<Walked, String> {
        let Input { zone, x, y, lng, lat, guard, rooms: [_, _, places], .. } = *input;
        let export = self.call(Export::Contains).contains;
        let is = unsafe { export(r, size, f, length, zone, x, y) };
        self.said(Export::Contains, is.into(), 0, 1)?;
        let export = self.call(Export::ContainsPlace).contains_place;
        let place = unsafe { export(r, size, f, length, zone, x, y) };
        let is_place = self.place(Export::ContainsPlace, is.into(), place, (f, length))?;

        let found = unsafe { (self.call(Export::Ask).ask)(r, size, f, length, lng, lat) };
        self.said(Export::Ask, found, -1, u32::MAX.into())?;
        let export = self.call(Export::AskPlace).ask_place;
        let place = unsafe { export(r, size, f, length, lng, lat) };
        let found_place = self.place(Export::AskPlace, found, place, (f, length))?;

        let out = self.rooms[2].lend(4 * places, input.at_end[5], guard)?.cast();
        let export = self.call(Export::AskAll).ask_all;
        let zones = unsafe { export(r, size, f, length, lng, lat, out, places) };
        let said = self.said(Export::AskAll, zones, 0, places as i64)?;
        let list = self.rooms[2].take(4 * said.unwrap_or(0) as usize)?;
        let out = self.unwritten(places, input.at_end[5], guard).cast();
        let export = self.call(Export::AskAllPlace).ask_all_place;
        let place = unsafe { export(r, size, f, length, lng, lat, out, places) };
        let places =
            [is_place, found_place, self.place(Export::AskAllPlace, zones, place, (f, length))?];
        Ok(Walked { is, found, zones, list, places })
    }

    /// The need, then the numbers, 46 exactly where the room is below it; then the walks' questions, with these numbers or others. With the
    /// numbers that were built they are answered as without.
    fn stripes(
        &mut self,
        input: &Input,
        (r, size): Slice,
        (f, length): Slice,
        plain: &Walked,
    ) -> Result<(), String> {
        let need = unsafe { (self.call(Export::StripesNeed).stripes_need)(r, size, f, length) };
        let said = self.said(Export::StripesNeed, need, 0, i64::MAX)?;
        let may = said.is_some() || [-1034, -1044, -1049].contains(&need);
        hold(may, || format!("{need} is no answer of a need"))?;

        // The guard chooses the room: none, a number short, just enough, all there is.
        let most = PAGE / 4;
        let needed = said.map_or(most, |need| most.min(need as usize));
        let room = [0, needed.saturating_sub(1), needed, most][(input.guard >> 2) as usize % 4];
        let lent = self.rooms[5].lend(4 * room, input.at_end[3], input.guard)?.cast();
        let export = self.call(Export::Stripes).stripes;
        let code = unsafe { export(r, size, f, length, lent, room) };
        let written = self.said(Export::Stripes, code, 0, room as i64)?;
        let built = self.rooms[5].take(4 * written.unwrap_or(0) as usize)?;
        let may = match said {
            Some(need) if (room as i64) < need => code == -1046,
            _ => code == need,
        };
        hold(may, || format!("{code} with room for {room}, where the need is {need}"))?;
        self.by_stripes(input, (r, size), (f, length), (written.is_some(), built), plain)
    }

    fn by_stripes(
        &mut self,
        input: &Input,
        (r, size): Slice,
        (f, length): Slice,
        (is_built, built): (bool, Vec<u8>),
        plain: &Walked,
    ) -> Result<(), String> {
        let Input { zone, x, y, lng, lat, guard, rooms: [_, _, places], .. } = *input;
        let other: Option<Vec<u8>> =
            input.numbers.as_ref().map(|all| all.iter().flat_map(|n| n.to_le_bytes()).collect());
        let alike = is_built && other.is_none();
        let (n, bytes) = self.numbers.put(&other.unwrap_or(built), input.at_end[6]);
        let (n, count) = (n.cast::<u32>(), bytes / 4);

        let export = self.call(Export::ContainsStriped).contains_striped;
        let is = unsafe { export(r, size, n, count, f, length, zone, x, y) };
        self.said(Export::ContainsStriped, is.into(), 0, 1)?;
        let export = self.call(Export::ContainsStripedPlace).contains_striped_place;
        let place = unsafe { export(r, size, n, count, f, length, zone, x, y) };
        let is_place = self.place(Export::ContainsStripedPlace, is.into(), place, (f, length))?;

        let export = self.call(Export::AskStriped).ask_striped;
        let found = unsafe { export(r, size, n, count, f, length, lng, lat) };
        self.said(Export::AskStriped, found, -1, u32::MAX.into())?;
        let export = self.call(Export::AskStripedPlace).ask_striped_place;
        let place = unsafe { export(r, size, n, count, f, length, lng, lat) };
        let found_place = self.place(Export::AskStripedPlace, found, place, (f, length))?;

        let out = self.rooms[2].lend(4 * places, input.at_end[5], guard)?.cast();
        let export = self.call(Export::AskAllStriped).ask_all_striped;
        let zones = unsafe { export(r, size, n, count, f, length, lng, lat, out, places) };
        let said = self.said(Export::AskAllStriped, zones, 0, places as i64)?;
        let list = self.rooms[2].take(4 * said.unwrap_or(0) as usize)?;
        let out = self.unwritten(places, input.at_end[5], guard).cast();
        let export = self.call(Export::AskAllStripedPlace).ask_all_striped_place;
        let place = unsafe { export(r, size, n, count, f, length, lng, lat, out, places) };
        let places = [
            is_place,
            found_place,
            self.place(Export::AskAllStripedPlace, zones, place, (f, length))?,
        ];

        let walked = Walked { is, found, zones, list, places };
        hold(!alike || walked == *plain, || format!("by stripes {walked:?}, plainly {plain:?}"))
    }

    /// An entry of the point is written exactly where nothing is wrong with the call, and with no reason it tells the zone exactly where the
    /// zone contains the point.
    fn journal(
        &mut self,
        input: &Input,
        (r, size): Slice,
        (f, length): Slice,
        is: i32,
    ) -> Result<(), String> {
        let Input { x, y, guard, ref journal, .. } = *input;
        let (places, room) = (journal.places, journal.rooms[0]);
        let out = self.rooms[4].lend(room, input.at_end[3], guard)?;
        let export = self.call(Export::JournalAsk).journal_ask;
        let code = unsafe { export(r, size, f, length, places, x, y, out, room) };
        let said = self.said(Export::JournalAsk, code.into(), 0, 0)?;
        let entry = self.rooms[4].take(if said.is_some() { ENTRY } else { 0 })?;
        let expected = match () {
            _ if size != SIZE => -1044,
            _ if places != 3 => -1050,
            _ if room < ENTRY => -1046,
            _ => 0,
        };
        hold(code == expected, || format!("{code}, where {expected} is due"))?;
        let number = |at: usize| u32::from_le_bytes(entry[at..at + 4].try_into().unwrap());
        let zones = entry.chunks(2).skip(4).take(entry.get(14).map_or(0, |&count| count.into()));
        let told = zones.map(|zone| u16::from_le_bytes([zone[0], zone[1]]));
        let is_told = told.map(u32::from).any(|zone| zone == input.zone);
        let may = match said {
            None => true,
            Some(_) if (number(0), number(4)) != (x as u32, y as u32) => false,
            Some(_) if entry[15] != 0 => !is_told,
            Some(_) => is_told == (is == 1) && (is >= 0 || is == -1045),
        };
        hold(may, || format!("{entry:?}, where the zone's containment says {is}"))?;
        let written = self.journal_writes(input)?;
        let last = if written.is_empty() { entry } else { written };
        self.journal_reads(input, last)
    }

    /// The entry, if one was written.
    fn journal_writes(&mut self, input: &Input) -> Result<Vec<u8>, String> {
        let Input { x, y, guard, ref journal, .. } = *input;
        let (places, reason, room) = (journal.places, journal.reason, journal.rooms[0]);
        let zones: Vec<u8> = journal.zones.iter().flat_map(|n| n.to_le_bytes()).collect();
        let (z, bytes) = self.numbers.put(&zones, input.at_end[6]);
        let (z, count) = (z.cast::<u32>(), bytes / 4);
        let out = self.rooms[4].lend(room, input.at_end[4], guard)?;
        let export = self.call(Export::JournalWrite).journal_write;
        let code = unsafe { export(places, x, y, z, count, reason, out, room) };
        let said = self.said(Export::JournalWrite, code.into(), 0, 0)?;
        let may = said.map_or([-1046, -1050].contains(&code), |_| room >= ENTRY && places == 3);
        hold(may, || format!("{code} with room for {room}"))?;
        self.rooms[4].take(if said.is_some() { ENTRY } else { 0 })
    }

    /// What was written is read, where there is room.
    fn journal_reads(&mut self, input: &Input, last: Vec<u8>) -> Result<(), String> {
        let Input { x, y, guard, ref journal, .. } = *input;
        let [_, room, zones_room] = journal.rooms;
        let wrote = journal.bytes.is_none() && !last.is_empty();
        let (b, length) = self.part.put(journal.bytes.as_ref().unwrap_or(&last), input.at_end[2]);
        let position = self.rooms[1].lend(4 * room, input.at_end[4], guard)?.cast();
        let zones = self.rooms[2].lend(4 * zones_room, input.at_end[5], guard)?.cast();
        let (places, export) = (journal.places, self.call(Export::JournalRead).journal_read);
        let code = unsafe { export(places, b, length, position, room, zones, zones_room) };
        let said = self.said(Export::JournalRead, code.into(), 0, 3 * 256)?;
        let read = self.rooms[1].take(if said.is_some() { 8 } else { 0 })?;
        let count = said.unwrap_or(0) as usize / 256;
        hold(count <= zones_room, || format!("{count} zones into {zones_room}"))?;
        self.rooms[2].take(4 * count)?;
        let may = match said {
            Some(_) if wrote => read == [x.to_le_bytes(), y.to_le_bytes()].concat(),
            Some(code) => code % 256 <= 46 && (code < 256 || code % 256 == 0),
            None if wrote => code == -1046 && (room < 2 || zones_room < 3),
            None => [-1046, -1050].contains(&code),
        };
        hold(may, || format!("{code} for an entry of {length} bytes, {read:?}"))
    }

    fn parts(&mut self, input: &Input, (p, length): Slice) -> Result<(), String> {
        let (at, s) = (input.at, input.scene);
        let number = unsafe { (self.call(Export::Number).number)(p, length, at) };
        let count = unsafe { (self.call(Export::NumberLength).number_length)(p, length, at) };
        let said = self.said(Export::NumberLength, count.into(), 1, 5)?;
        hold(said.is_some() || number == 0, || format!("{count}, and the number is {number}"))?;
        unsafe { (self.call(Export::Crc32).crc32)(p, length) };
        let is = |what: u32| hold(what < 2, || format!("{what} is no answer"));
        is(unsafe { (self.call(Export::Utf8).utf8)(p, length) })?;
        let Scene { ax, ay, bx, by, x, y } = s;
        let export = self.call(Export::BoxContains).box_contains;
        is(unsafe { export(ax, ay, bx, by, x, y) })?;
        let export = self.call(Export::BoxRelevant).box_relevant;
        is(unsafe { export(ax, ay, bx, by, x, y) })?;
        is(unsafe { (self.call(Export::Parity).parity)(ax, ay, bx, by, x, y) })?;
        let seen = unsafe { (self.call(Export::Ray).ray)(ax, ay, bx, by, x, y) };
        hold((0..=2).contains(&seen), || format!("{seen} is no answer"))?;
        unsafe { (self.call(Export::NextUp).next_up)(x) };
        Ok(())
    }
}
