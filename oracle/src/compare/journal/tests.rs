//! That the comparison can fail: the rules stand in the exports' place, and are changed in one thing. The archive's exports are compared as
//! well.

use super::stand_in::{STAND_IN, ask, read, write};
use super::*;
use std::slice::{from_raw_parts, from_raw_parts_mut};

/// What is found of these exports, over the entries that tell, some random ones, the kept files and some random ones.
fn found(port: Journals) -> Option<String> {
    let mut run = Run::new(port, 8);
    let entries = run.telling_entries().err();
    let entries = entries.or_else(|| (0..2000).find_map(|_| run.some_entry().err()));
    entries.or_else(|| files(&mut run).err().map(|(_, why)| why))
}

fn files(run: &mut Run) -> Result<(), (Vec<u8>, String)> {
    (0..12).try_for_each(|_| run.some_file())?;
    run.fixed_files()
}

#[test]
fn the_rules_are_not_found_fault_with() {
    assert_eq!(found(STAND_IN), None);
}

#[test]
fn the_port_is_not_found_fault_with() {
    assert_eq!(found(crate::port::journal::PORT), None);
}

/// Takes a right code of reading, and both rooms with a number before each and one behind. Gives the code of a wrong one.
type OfReading = fn(i32, &mut [i32], &mut [u32]) -> i32;

const OF_READING: [OfReading; 12] = [
    // It writes where it may not: around the rooms, behind what was read, where it refuses.
    |code, position, _| {
        position[0] = 0;
        code
    },
    |code, position, _| {
        position[position.len() - 1] = 0;
        code
    },
    |code, _, zones| {
        zones[0] = 0;
        code
    },
    |code, _, zones| {
        zones[zones.len() - 1] = 0;
        code
    },
    |code, position, _| {
        if code >= 0 && position.len() > 4 {
            position[3] = 0;
        }
        code
    },
    |code, _, zones| {
        if code >= 0 && code as usize / 256 + 2 < zones.len() {
            zones[1 + code as usize / 256] = 65_535;
        }
        code
    },
    |code, position, _| {
        if code < 0 && position.len() > 2 {
            position[1] = 0;
        }
        code
    },
    |code, _, zones| {
        if code == -1046 && zones.len() > 2 {
            zones[1] = 0;
        }
        code
    },
    // It refuses in another order, wants more room than it needs, or says another reason.
    |code, position, _| if code == -1050 && position.len() == 2 { -1046 } else { code },
    |code, _, zones| if (256..512).contains(&code) && zones.len() == 3 { -1046 } else { code },
    |code, position, _| if code >= 0 && position.len() == 4 { -1046 } else { code },
    |code, _, _| if code == 46 { 45 } else { code },
];

unsafe extern "C" fn read_otherwise<const I: usize>(
    places: u32,
    bytes: *const u8,
    length: usize,
    position: *mut i32,
    room: usize,
    zones: *mut u32,
    zones_room: usize,
) -> i32 {
    unsafe {
        let code = read(places, bytes, length, position, room, zones, zones_room);
        let position = from_raw_parts_mut(position.sub(1), room + 2);
        OF_READING[I](code, position, from_raw_parts_mut(zones.sub(1), zones_room + 2))
    }
}

/// What reading would take in the place of these bytes: one rule less.
type Lenient = fn(&mut Vec<u8>);

const LENIENT: [Lenient; 8] = [
    // A longer entry; unused places that hold something; a zone of 65535; a zone twice; zones outside the domain; a reason with zones; a
    // reason of 47; a count that is too large.
    |bytes| bytes.truncate(16),
    |bytes| {
        if bytes.len() == 16 && bytes[14] < 3 {
            let used = 8 + 2 * usize::from(bytes[14]);
            bytes[used..14].fill(0xff);
        }
    },
    |bytes| {
        if bytes.len() == 16 && bytes[8..10] == [0xff, 0xff] && bytes[14] == 1 {
            bytes[8] = 7;
        }
    },
    |bytes| {
        if bytes.len() == 16 && bytes[14] == 3 && bytes[8..10] == bytes[12..14] {
            bytes[12] ^= 1;
        }
    },
    |bytes| {
        if bytes.len() == 16 {
            bytes[..8].fill(0);
        }
    },
    |bytes| {
        if bytes.len() == 16 && bytes[14] > 0 {
            bytes[15] = 0;
        }
    },
    |bytes| {
        if bytes.len() == 16 && bytes[15] == 47 {
            bytes[15] = 46;
        }
    },
    |bytes| {
        if bytes.len() == 16 && bytes[14] == 4 {
            bytes[14] = 3;
        }
    },
];

unsafe extern "C" fn read_lenient<const I: usize>(
    places: u32,
    bytes: *const u8,
    length: usize,
    position: *mut i32,
    room: usize,
    zones: *mut u32,
    zones_room: usize,
) -> i32 {
    unsafe {
        let mut other = from_raw_parts(bytes, length).to_vec();
        LENIENT[I](&mut other);
        read(places, other.as_ptr(), other.len(), position, room, zones, zones_room)
    }
}

unsafe extern "C" fn read_of_seven(
    places: u32,
    bytes: *const u8,
    length: usize,
    position: *mut i32,
    room: usize,
    zones: *mut u32,
    zones_room: usize,
) -> i32 {
    let three = if places == 259 { 3 } else { places };
    unsafe { read(three, bytes, length, position, room, zones, zones_room) }
}

#[test]
fn a_reader_that_differs_is_found_out() {
    let all = [
        read_otherwise::<0>,
        read_otherwise::<1>,
        read_otherwise::<2>,
        read_otherwise::<3>,
        read_otherwise::<4>,
        read_otherwise::<5>,
        read_otherwise::<6>,
        read_otherwise::<7>,
        read_otherwise::<8>,
        read_otherwise::<9>,
        read_otherwise::<10>,
        read_otherwise::<11>,
        read_lenient::<0>,
        read_lenient::<1>,
        read_lenient::<2>,
        read_lenient::<3>,
        read_lenient::<4>,
        read_lenient::<5>,
        read_lenient::<6>,
        read_lenient::<7>,
        read_of_seven,
    ];
    assert_eq!(all.len(), OF_READING.len() + LENIENT.len() + 1);
    for (i, read) in all.into_iter().enumerate() {
        assert!(found(Journals { read, ..STAND_IN }).is_some(), "change {i} is not found out");
    }
}

/// Takes a right code of writing or asking, and the room with a byte before it and one behind. Gives the code of a wrong one.
type OfRoom = fn(i32, &mut [u8]) -> i32;

const OF_ROOM: [OfRoom; 8] = [
    |code, lent| {
        lent[0] = 0;
        code
    },
    |code, lent| {
        lent[lent.len() - 1] = 0;
        code
    },
    |code, lent| {
        if code == 0 && lent.len() > 18 {
            lent[17] = 0;
        }
        code
    },
    |code, lent| {
        if code < 0 && lent.len() > 2 {
            lent[1] = 0;
        }
        code
    },
    |code, lent| if code == -1050 && lent.len() < 18 { -1046 } else { code },
    |code, lent| if code == 0 && lent.len() == 18 { -1046 } else { code },
    |code, _| if code == 0 { 16 } else { code },
    |code, lent| {
        if code == 0 {
            lent[13] = 0;
        }
        code
    },
];

#[allow(clippy::too_many_arguments)]
unsafe extern "C" fn write_otherwise<const I: usize>(
    places: u32,
    x: i32,
    y: i32,
    zones: *const u32,
    count: usize,
    reason: u32,
    out: *mut u8,
    room: usize,
) -> i32 {
    let code = unsafe { write(places, x, y, zones, count, reason, out, room) };
    OF_ROOM[I](code, unsafe { from_raw_parts_mut(out.sub(1), room + 2) })
}

/// The last byte of a reason alone is looked at.
#[allow(clippy::too_many_arguments)]
unsafe extern "C" fn write_of_a_byte(
    places: u32,
    x: i32,
    y: i32,
    zones: *const u32,
    count: usize,
    reason: u32,
    out: *mut u8,
    room: usize,
) -> i32 {
    unsafe { write(places, x, y, zones, count, reason % 256, out, room) }
}

/// Two bytes of a zone alone are looked at.
#[allow(clippy::too_many_arguments)]
unsafe extern "C" fn write_of_halves(
    places: u32,
    x: i32,
    y: i32,
    zones: *const u32,
    count: usize,
    reason: u32,
    out: *mut u8,
    room: usize,
) -> i32 {
    let halves = |&zone: &u32| zone % 65_536;
    let zones: Vec<u32> = unsafe { from_raw_parts(zones, count) }.iter().map(halves).collect();
    unsafe { write(places, x, y, zones.as_ptr(), count, reason, out, room) }
}

/// Where there are more zones than places, the first are written.
#[allow(clippy::too_many_arguments)]
unsafe extern "C" fn write_of_the_first(
    places: u32,
    x: i32,
    y: i32,
    zones: *const u32,
    count: usize,
    reason: u32,
    out: *mut u8,
    room: usize,
) -> i32 {
    unsafe { write(places, x, y, zones, count.min(3), reason, out, room) }
}

#[test]
fn a_writer_that_differs_is_found_out() {
    let all = [
        write_otherwise::<0>,
        write_otherwise::<1>,
        write_otherwise::<2>,
        write_otherwise::<3>,
        write_otherwise::<4>,
        write_otherwise::<5>,
        write_otherwise::<6>,
        write_otherwise::<7>,
        write_of_a_byte,
        write_of_halves,
        write_of_the_first,
    ];
    for (i, write) in all.into_iter().enumerate() {
        assert!(found(Journals { write, ..STAND_IN }).is_some(), "change {i} is not found out");
    }
}

/// What is found of an export that asks, over files alone.
fn found_asking(ask: crate::port::journal::Ask) -> Option<String> {
    let mut run = Run::new(Journals { ask, ..STAND_IN }, 8);
    files(&mut run).err().map(|(_, why)| why)
}

#[allow(clippy::too_many_arguments)]
unsafe extern "C" fn ask_otherwise<const I: usize>(
    r: *const u8,
    size: usize,
    f: *const u8,
    length: usize,
    places: u32,
    x: i32,
    y: i32,
    out: *mut u8,
    room: usize,
) -> i32 {
    let code = unsafe { ask(r, size, f, length, places, x, y, out, room) };
    OF_ROOM[I](code, unsafe { from_raw_parts_mut(out.sub(1), room + 2) })
}

/// Takes a right entry, the record that it is of, and its bytes. Gives the entry that a wrong rule would write.
type Wrong = fn(Entry, &Opened, &[u8]) -> Entry;

fn with_reason(entry: Entry, reason: u32) -> Entry {
    Entry { zones: Vec::new(), reason, ..entry }
}

const WRONG: [Wrong; 9] = [
    // The zones in the order of their numbers, or equal names the other way round; of more than three the first.
    |mut entry, _, _| {
        entry.zones.sort();
        entry
    },
    |mut entry, o, file| {
        let name =
            |zone: u32| o.name(zone.into()).map(|(at, long)| &file[at as usize..][..long as usize]);
        entry.zones.reverse();
        entry.zones.sort_by_key(|&zone| name(zone));
        entry
    },
    |entry, o, _| {
        let mut of_seven = o.entry(7, entry.x, entry.y);
        of_seven.zones.truncate(PLACES);
        of_seven
    },
    // Other reasons; a refusal is no zone.
    |entry, _, _| if entry.reason == 46 { with_reason(entry, 45) } else { entry },
    |entry, _, _| if entry.reason == 45 { with_reason(entry, 46) } else { entry },
    |entry, _, _| if entry.reason == 23 { with_reason(entry, 44) } else { entry },
    |entry, _, _| if entry.reason == 34 { with_reason(entry, 0) } else { entry },
    // GRID is asked; a point outside the domain is asked.
    |entry, o, _| match o.candidates(f64::from(entry.x) / 1e5, f64::from(entry.y) / 1e5) {
        Ok(rules::Candidates::Nothing) => with_reason(entry, 0),
        _ => entry,
    },
    |entry, o, _| {
        let inside = (entry.x.clamp(-18_000_000, 18_000_000), entry.y.clamp(-9_000_000, 9_000_000));
        let reason = o.entry(PLACES, inside.0, inside.1).reason;
        if inside == (entry.x, entry.y) { entry } else { with_reason(entry, reason) }
    },
];

#[allow(clippy::too_many_arguments)]
unsafe extern "C" fn ask_wrong<const I: usize>(
    r: *const u8,
    size: usize,
    f: *const u8,
    length: usize,
    places: u32,
    x: i32,
    y: i32,
    out: *mut u8,
    room: usize,
) -> i32 {
    let code = unsafe { ask(r, size, f, length, places, x, y, out, room) };
    if code == 0 {
        let (record, file) = unsafe { (from_raw_parts(r, size), from_raw_parts(f, length)) };
        let opened = Opened::of_record(record, file).ok().expect("a record of 84 bytes");
        let entry = WRONG[I](opened.entry(PLACES, x, y), &opened, file);
        let bytes = entry.write(PLACES).expect("an entry");
        let lent = unsafe { from_raw_parts_mut(out, room) };
        lent[..WHOLE].copy_from_slice(&bytes);
    }
    code
}

/// 50 before 44.
#[allow(clippy::too_many_arguments)]
unsafe extern "C" fn ask_places_first(
    r: *const u8,
    size: usize,
    f: *const u8,
    length: usize,
    places: u32,
    x: i32,
    y: i32,
    out: *mut u8,
    room: usize,
) -> i32 {
    if places != 3 {
        return -1050;
    }
    unsafe { ask(r, size, f, length, places, x, y, out, room) }
}

#[test]
fn answers_that_differ_are_found_out() {
    let all = [
        ask_otherwise::<0>,
        ask_otherwise::<1>,
        ask_otherwise::<2>,
        ask_otherwise::<3>,
        ask_otherwise::<4>,
        ask_otherwise::<5>,
        ask_otherwise::<6>,
        ask_otherwise::<7>,
        ask_wrong::<0>,
        ask_wrong::<1>,
        ask_wrong::<2>,
        ask_wrong::<3>,
        ask_wrong::<4>,
        ask_wrong::<5>,
        ask_wrong::<6>,
        ask_wrong::<7>,
        ask_wrong::<8>,
        ask_places_first,
    ];
    assert_eq!(all.len(), OF_ROOM.len() + WRONG.len() + 1);
    for (i, ask) in all.into_iter().enumerate() {
        assert!(found_asking(ask).is_some(), "change {i} is not found out");
    }
}
