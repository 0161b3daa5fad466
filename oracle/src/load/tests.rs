//! That the run can fail: fences fault, and a wrong export is found out.

use super::calls::Caller;
use super::fence::{Lent, PAGE, Room};
use super::inputs::Inputs;
use super::watch;
use crate::port::exports::{Exports, NAMES, PORT};
use std::os::unix::process::ExitStatusExt;
use std::process::{Command, Stdio};

/// Names to a child what it is to do.
const TASK: &str = "ORACLE_LOAD_TASK";
/// SIGSEGV.
const FAULT: (Option<i32>, Option<i32>) = (None, Some(11));
/// The run has told what is wrong.
const TOLD: (Option<i32>, Option<i32>) = (Some(1), None);

/// How this program ends, started anew for one task: its status and its signal. An emulator is started as cargo does it.
fn child(task: &str) -> (Option<i32>, Option<i32>) {
    let own = std::env::current_exe().unwrap();
    let mut command = match std::env::var("CARGO_TARGET_X86_64_UNKNOWN_LINUX_GNU_RUNNER") {
        Ok(emulator) => Command::new(emulator),
        Err(_) => Command::new(&own),
    };
    if command.get_program() != own.as_os_str() {
        command.arg(&own);
    }
    command.args(["--exact", "load::tests::as_a_child", "--test-threads", "1"]);
    command.env(TASK, task).stdout(Stdio::null()).stderr(Stdio::null());
    let status = command.status().expect("a child");
    (status.code(), status.signal())
}

/// Does its task in a child, and nothing otherwise.
#[test]
fn as_a_child() {
    let Ok(task) = std::env::var(TASK) else { return };
    let (mut lent, mut room) = (Lent::new(PAGE), Room::new());
    let (bytes, none) = ([7; 84], []);
    unsafe {
        match task.as_str() {
            "nothing" => {}
            "read behind" => _ = lent.put(&bytes, true).0.add(84).read_volatile(),
            "read behind none" => _ = lent.put(&none, true).0.read_volatile(),
            "read before" => _ = lent.put(&bytes, false).0.sub(1).read_volatile(),
            "write to what may be read" => lent.put(&bytes, false).0.cast_mut().write_volatile(1),
            "write behind" => room.lend(84, true, 5).unwrap().add(84).write_volatile(1),
            "write before" => room.lend(84, false, 5).unwrap().sub(1).write_volatile(1),
            "sum" => run(Exports { crc32: sum_that_reads_one_behind, ..PORT }),
            "count" => run(Exports { zone_count: count_that_writes, ..PORT }),
            "text" => run(Exports { utf8: text_without_end, ..PORT }),
            "list" => run(Exports { ask_all_place: of_places::list_that_writes, ..PORT }),
            other => panic!("no task {other}"),
        }
    }
}

#[test]
fn a_byte_past_a_fence_faults() {
    assert_eq!(child("nothing"), (Some(0), None));
    for task in ["read behind", "read behind none", "read before", "write behind", "write before"] {
        assert_eq!(child(task), FAULT, "{task}");
    }
    assert_eq!(child("write to what may be read"), FAULT);
}

#[test]
fn up_to_the_fences_all_may_be_touched() {
    let mut lent = Lent::new(PAGE);
    let mut room = Room::new();
    for at_end in [true, false] {
        for length in [1, 84, PAGE] {
            let (from, _) = lent.put(&vec![7; length], at_end);
            assert_eq!(unsafe { from.read_volatile() + from.add(length - 1).read_volatile() }, 14);
            let to = room.lend(length, at_end, 5).unwrap();
            unsafe { to.write_bytes(9, length) };
            assert_eq!(room.take(length), Ok(vec![9; length]));
        }
    }
}

#[test]
fn a_room_tells_what_changed() {
    for at in [-1isize, 0, 83, 84, 99] {
        let mut room = Room::new();
        let lent = room.lend(100, true, 0x0102_0304_0506_0708).unwrap();
        unsafe { *lent.offset(at) ^= 1 };
        assert_eq!(room.take(84).is_ok(), (0..84).contains(&at), "byte {at}");
    }
    let mut room = Room::new();
    let lent = room.lend(100, false, 5).unwrap();
    assert_eq!(room.take(0), Ok(Vec::new()));
    unsafe { *lent.add(200) ^= 1 };
    assert!(room.lend(100, false, 5).is_err(), "a byte that changed between two calls");
}

#[test]
fn every_export_of_the_header_is_called() {
    let header = include_str!("../../../include/tzb.h");
    let line = |line: &&str| line.ends_with(");") && !line.starts_with(" *");
    let name = |line: &'static str| line.split('(').next().unwrap().rsplit([' ', '*']).next();
    let names: Vec<&str> = header.lines().filter(line).filter_map(name).collect();
    let mut known = NAMES.to_vec();
    let mut sorted = names.clone();
    known.sort_unstable();
    sorted.sort_unstable();
    assert_eq!(sorted, known);
    let mut caller = Caller::new(PORT);
    caller.put(&Inputs::new(1).input(0)).unwrap();
    assert_eq!(caller.tally.calls, [1; NAMES.len()]);
}

/// What is told of these exports, by some thousand inputs.
fn told(exports: Exports) -> Option<String> {
    let (mut inputs, mut caller) = (Inputs::new(5), Caller::new(exports));
    (0..3000).find_map(|number| caller.put(&inputs.input(number)).err())
}

#[test]
fn the_port_is_not_found_fault_with() {
    assert_eq!(told(PORT), None);
}

unsafe extern "C" fn open_that_writes_where_it_refuses(
    file: *const u8,
    length: usize,
    record: *mut u8,
    room: usize,
) -> i32 {
    let code = unsafe { (PORT.open)(file, length, record, room) };
    if code < 0 && room > 0 {
        unsafe { *record.add(room - 1) ^= 1 };
    }
    code
}

unsafe extern "C" fn open_that_writes_one_behind(
    file: *const u8,
    length: usize,
    record: *mut u8,
    room: usize,
) -> i32 {
    let code = unsafe { (PORT.open)(file, length, record, room) };
    if code == 0 && room > 84 {
        unsafe { *record.add(84) ^= 1 };
    }
    code
}

unsafe extern "C" fn decode_that_writes_where_it_refuses(
    record: *const u8,
    size: usize,
    file: *const u8,
    length: usize,
    chunk: u32,
    out: *mut i32,
    room: usize,
) -> i64 {
    let code = unsafe { (PORT.decode)(record, size, file, length, chunk, out, room) };
    if code == -1042 && room > 0 {
        unsafe { *out ^= 1 };
    }
    code
}

unsafe extern "C" fn decode_that_writes_one_behind(
    record: *const u8,
    size: usize,
    file: *const u8,
    length: usize,
    chunk: u32,
    out: *mut i32,
    room: usize,
) -> i64 {
    let code = unsafe { (PORT.decode)(record, size, file, length, chunk, out, room) };
    if code > 0 && 2 * (code as usize) < room {
        unsafe { *out.add(2 * code as usize) ^= 1 };
    }
    code
}

unsafe extern "C" fn list_that_writes_where_it_refuses(
    record: *const u8,
    size: usize,
    file: *const u8,
    length: usize,
    lng: f64,
    lat: f64,
    zones: *mut u32,
    places: usize,
) -> i64 {
    let code = unsafe { (PORT.ask_all)(record, size, file, length, lng, lat, zones, places) };
    if code < 0 && places > 0 {
        unsafe { *zones ^= 1 };
    }
    code
}

unsafe extern "C" fn contains_that_says_two(
    _: *const u8,
    _: usize,
    _: *const u8,
    _: usize,
    _: u32,
    _: i32,
    _: i32,
) -> i32 {
    2
}

#[test]
fn a_wrong_export_is_found_out() {
    let changed = |exports| told(exports).is_some_and(|what| what.contains("changed"));
    assert!(changed(Exports { open: open_that_writes_where_it_refuses, ..PORT }));
    assert!(changed(Exports { open: open_that_writes_one_behind, ..PORT }));
    assert!(changed(Exports { decode: decode_that_writes_where_it_refuses, ..PORT }));
    assert!(changed(Exports { decode: decode_that_writes_one_behind, ..PORT }));
    assert!(changed(Exports { ask_all: list_that_writes_where_it_refuses, ..PORT }));
    assert!(told(Exports { contains: contains_that_says_two, ..PORT }).is_some());
}

unsafe extern "C" fn map_that_writes_where_it_refuses(
    file: *const u8,
    length: usize,
    zone: u32,
    out: *mut u8,
    room: usize,
) -> i64 {
    let code = unsafe { (PORT.map)(file, length, zone, out, room) };
    if [-1047, -1048].contains(&code) && room > 0 {
        unsafe { *out ^= 1 };
    }
    code
}

unsafe extern "C" fn map_that_writes_one_behind(
    file: *const u8,
    length: usize,
    zone: u32,
    out: *mut u8,
    room: usize,
) -> i64 {
    let code = unsafe { (PORT.map)(file, length, zone, out, room) };
    if code > 0 && (code as usize) < room {
        unsafe { *out.add(code as usize) ^= 1 };
    }
    code
}

unsafe extern "C" fn length_that_is_one_more(file: *const u8, length: usize, zone: u32) -> i64 {
    let code = unsafe { (PORT.map_length)(file, length, zone) };
    if code > 0 { code + 1 } else { code }
}

#[test]
fn a_wrong_map_is_found_out() {
    let changed = |exports| told(exports).is_some_and(|what| what.contains("changed"));
    assert!(changed(Exports { map: map_that_writes_where_it_refuses, ..PORT }));
    assert!(changed(Exports { map: map_that_writes_one_behind, ..PORT }));
    assert!(told(Exports { map_length: length_that_is_one_more, ..PORT }).is_some());
}

mod of_stripes {
    use super::*;

    unsafe extern "C" fn need_of_one_more(
        record: *const u8,
        size: usize,
        file: *const u8,
        length: usize,
    ) -> i64 {
        let code = unsafe { (PORT.stripes_need)(record, size, file, length) };
        if code > 0 { code + 1 } else { code }
    }

    unsafe extern "C" fn stripes_that_write_where_they_refuse(
        record: *const u8,
        size: usize,
        file: *const u8,
        length: usize,
        numbers: *mut u32,
        room: usize,
    ) -> i64 {
        let code = unsafe { (PORT.stripes)(record, size, file, length, numbers, room) };
        if code == -1046 && room > 0 {
            unsafe { *numbers ^= 1 };
        }
        code
    }

    unsafe extern "C" fn stripes_that_write_one_behind(
        record: *const u8,
        size: usize,
        file: *const u8,
        length: usize,
        numbers: *mut u32,
        room: usize,
    ) -> i64 {
        let code = unsafe { (PORT.stripes)(record, size, file, length, numbers, room) };
        if code > 0 && (code as usize) < room {
            unsafe { *numbers.add(code as usize) ^= 1 };
        }
        code
    }

    /// Where the plain walk finds a zone, by stripes none is found.
    #[allow(clippy::too_many_arguments)]
    unsafe extern "C" fn ask_that_finds_none(
        record: *const u8,
        size: usize,
        numbers: *const u32,
        count: usize,
        file: *const u8,
        length: usize,
        lng: f64,
        lat: f64,
    ) -> i64 {
        let export = PORT.ask_striped;
        let code = unsafe { export(record, size, numbers, count, file, length, lng, lat) };
        if code >= 0 { -1 } else { code }
    }

    #[test]
    fn wrong_stripes_are_found_out() {
        let changed = |exports| told(exports).is_some_and(|what| what.contains("changed"));
        assert!(changed(Exports { stripes: stripes_that_write_where_they_refuse, ..PORT }));
        assert!(changed(Exports { stripes: stripes_that_write_one_behind, ..PORT }));
        assert!(told(Exports { stripes_need: need_of_one_more, ..PORT }).is_some());
        assert!(told(Exports { ask_striped: ask_that_finds_none, ..PORT }).is_some());
    }
}

mod of_journal {
    use super::*;

    /// Of the zones that it tells it leaves out the first.
    #[allow(clippy::too_many_arguments)]
    unsafe extern "C" fn ask_without_the_first(
        record: *const u8,
        size: usize,
        file: *const u8,
        length: usize,
        places: u32,
        x: i32,
        y: i32,
        out: *mut u8,
        room: usize,
    ) -> i32 {
        let export = PORT.journal_ask;
        let code = unsafe { export(record, size, file, length, places, x, y, out, room) };
        if code == 0 {
            let entry = unsafe { std::slice::from_raw_parts_mut(out, 16) };
            entry[8..14].fill(0xff);
            entry[14] = 0;
        }
        code
    }

    #[allow(clippy::too_many_arguments)]
    unsafe extern "C" fn ask_that_writes_one_behind(
        record: *const u8,
        size: usize,
        file: *const u8,
        length: usize,
        places: u32,
        x: i32,
        y: i32,
        out: *mut u8,
        room: usize,
    ) -> i32 {
        let export = PORT.journal_ask;
        let code = unsafe { export(record, size, file, length, places, x, y, out, room) };
        if code == 0 && room > 16 {
            unsafe { *out.add(16) ^= 1 };
        }
        code
    }

    #[allow(clippy::too_many_arguments)]
    unsafe extern "C" fn write_that_writes_where_it_refuses(
        places: u32,
        x: i32,
        y: i32,
        zones: *const u32,
        count: usize,
        reason: u32,
        out: *mut u8,
        room: usize,
    ) -> i32 {
        let export = PORT.journal_write;
        let code = unsafe { export(places, x, y, zones, count, reason, out, room) };
        if code < 0 && room > 0 {
            unsafe { *out ^= 1 };
        }
        code
    }

    unsafe extern "C" fn read_that_writes_where_it_refuses(
        places: u32,
        bytes: *const u8,
        length: usize,
        position: *mut i32,
        room: usize,
        zones: *mut u32,
        zones_room: usize,
    ) -> i32 {
        let export = PORT.journal_read;
        let code = unsafe { export(places, bytes, length, position, room, zones, zones_room) };
        if code == -1046 && room > 0 {
            unsafe { *position ^= 1 };
        }
        code
    }

    unsafe extern "C" fn read_that_writes_one_zone_behind(
        places: u32,
        bytes: *const u8,
        length: usize,
        position: *mut i32,
        room: usize,
        zones: *mut u32,
        zones_room: usize,
    ) -> i32 {
        let export = PORT.journal_read;
        let code = unsafe { export(places, bytes, length, position, room, zones, zones_room) };
        if code >= 0 && (code as usize / 256) < zones_room {
            unsafe { *zones.add(code as usize / 256) ^= 1 };
        }
        code
    }

    #[test]
    fn a_wrong_journal_is_found_out() {
        let changed = |exports| told(exports).is_some_and(|what| what.contains("changed"));
        assert!(changed(Exports { journal_ask: ask_that_writes_one_behind, ..PORT }));
        assert!(changed(Exports { journal_write: write_that_writes_where_it_refuses, ..PORT }));
        assert!(changed(Exports { journal_read: read_that_writes_where_it_refuses, ..PORT }));
        assert!(changed(Exports { journal_read: read_that_writes_one_zone_behind, ..PORT }));
        assert!(told(Exports { journal_ask: ask_without_the_first, ..PORT }).is_some());
    }
}

mod of_places {
    use super::*;

    /// None, where a number is refused.
    unsafe extern "C" fn decode_without(
        _: *const u8,
        _: usize,
        _: *const u8,
        _: usize,
        _: u32,
        _: *const i32,
        _: usize,
    ) -> i64 {
        -1
    }

    /// A byte further on: past the end of the file, or where no number is refused.
    unsafe extern "C" fn decode_of_one_more(
        record: *const u8,
        size: usize,
        file: *const u8,
        length: usize,
        chunk: u32,
        out: *const i32,
        room: usize,
    ) -> i64 {
        let place = unsafe { (PORT.decode_place)(record, size, file, length, chunk, out, room) };
        if place < 0 { place } else { place + 1 }
    }

    /// The first byte, where nothing is refused.
    unsafe extern "C" fn ask_that_always_has_one(
        record: *const u8,
        size: usize,
        file: *const u8,
        length: usize,
        lng: f64,
        lat: f64,
    ) -> i64 {
        unsafe { (PORT.ask_place)(record, size, file, length, lng, lat) }.max(0)
    }

    /// The end of the file, which plainly it is not.
    #[allow(clippy::too_many_arguments)]
    unsafe extern "C" fn striped_at_the_end(
        record: *const u8,
        size: usize,
        numbers: *const u32,
        count: usize,
        file: *const u8,
        length: usize,
        lng: f64,
        lat: f64,
        zones: *const u32,
        places: usize,
    ) -> i64 {
        let export = PORT.ask_all_striped_place;
        let place =
            unsafe { export(record, size, numbers, count, file, length, lng, lat, zones, places) };
        if place < 0 { place } else { length as i64 }
    }

    #[test]
    fn a_wrong_place_is_found_out() {
        assert!(told(Exports { decode_place: decode_without, ..PORT }).is_some());
        assert!(told(Exports { decode_place: decode_of_one_more, ..PORT }).is_some());
        assert!(told(Exports { ask_place: ask_that_always_has_one, ..PORT }).is_some());
        assert!(told(Exports { ask_all_striped_place: striped_at_the_end, ..PORT }).is_some());
    }

    /// In a child: a place's export writes to the numbers that it is lent.
    pub unsafe extern "C" fn list_that_writes(
        record: *const u8,
        size: usize,
        file: *const u8,
        length: usize,
        lng: f64,
        lat: f64,
        zones: *const u32,
        places: usize,
    ) -> i64 {
        if places > 0 {
            unsafe { zones.cast_mut().write_volatile(0) };
        }
        unsafe { (PORT.ask_all_place)(record, size, file, length, lng, lat, zones, places) }
    }
}

unsafe extern "C" fn sum_that_reads_one_behind(bytes: *const u8, length: usize) -> u32 {
    unsafe { bytes.add(length).read_volatile().into() }
}

unsafe extern "C" fn count_that_writes(record: *const u8, size: usize) -> i64 {
    if size > 0 {
        unsafe { record.cast_mut().write_volatile(0) };
    }
    0
}

unsafe extern "C" fn text_without_end(_: *const u8, _: usize) -> u32 {
    loop {
        std::hint::spin_loop();
    }
}

/// Some inputs, watched as in a run, where a call may take a second.
fn run(exports: Exports) {
    watch::start(5, 1);
    let (mut inputs, mut caller) = (Inputs::new(5), Caller::new(exports));
    for number in 0..100 {
        let input = inputs.input(number);
        watch::now(number, &input);
        caller.put(&input).unwrap();
    }
}

#[test]
fn a_fault_and_a_call_without_end_are_told() {
    for task in ["sum", "count", "text", "list"] {
        assert_eq!(child(task), TOLD, "{task}");
    }
}
