//! Every export of `include/tzb.h`, in its order. Declared once, and as a table, so that a test can put a wrong one in the place of any.

type Bytes = *const u8;
type Numbers = *const u32;

/// For each export: when it is there, its place in `NAMES`, its field in the table, and its declaration.
macro_rules! exports {
    ($($(#[$when:meta])* $place:ident $field:ident: $safety:ident fn $name:ident($($of:ident: $lent:ty),*) -> $answer:ty;)*) => {
        unsafe extern "C" {
            $($(#[$when])* pub $safety fn $name($($of: $lent),*) -> $answer;)*
        }

        #[derive(Clone, Copy)]
        pub struct Exports {
            $($(#[$when])* pub $field: unsafe extern "C" fn($($lent),*) -> $answer,)*
        }

        pub const PORT: Exports = Exports { $($(#[$when])* $field: $name,)* };

        /// Their places in `NAMES`.
        #[derive(Clone, Copy)]
        pub enum Export {
            $($(#[$when])* $place,)*
        }

        pub const NAMES: &[&str] = &[$($(#[$when])* stringify!($name),)*];
    };
}

exports! {
    Open open: unsafe fn tzb_open(file: Bytes, length: usize, record: *mut u8, room: usize) -> i32;
    ZoneCount zone_count: unsafe fn tzb_zone_count(record: Bytes, size: usize) -> i64;
    NameStart name_start: unsafe fn tzb_name_start(
        record: Bytes, size: usize, file: Bytes, length: usize, zone: u32
    ) -> i64;
    NameEnd name_end: unsafe fn tzb_name_end(
        record: Bytes, size: usize, file: Bytes, length: usize, zone: u32
    ) -> i64;
    Name name: unsafe fn tzb_name(
        record: Bytes, size: usize, file: Bytes, length: usize, zone: u32, ends: *mut u64, room: usize
    ) -> i32;
    Choice choice: unsafe fn tzb_choice(
        record: Bytes, size: usize, file: Bytes, length: usize, lng: f64, lat: f64
    ) -> i32;
    Listed listed: unsafe fn tzb_listed(
        record: Bytes, size: usize, file: Bytes, length: usize, lng: f64, lat: f64
    ) -> u64;
    Candidate candidate: unsafe fn tzb_candidate(
        record: Bytes, size: usize, file: Bytes, length: usize, place: u32
    ) -> i64;
    Contains contains: unsafe fn tzb_contains(
        record: Bytes, size: usize, file: Bytes, length: usize, zone: u32, x: i32, y: i32
    ) -> i32;
    ContainsPlace contains_place: unsafe fn tzb_contains_place(
        record: Bytes, size: usize, file: Bytes, length: usize, zone: u32, x: i32, y: i32
    ) -> i64;
    Decode decode: unsafe fn tzb_decode(
        record: Bytes, size: usize, file: Bytes, length: usize, chunk: u32, out: *mut i32, room: usize
    ) -> i64;
    DecodePlace decode_place: unsafe fn tzb_decode_place(
        record: Bytes, size: usize, file: Bytes, length: usize, chunk: u32, out: *const i32, room: usize
    ) -> i64;
    Lookup lookup: unsafe fn tzb_lookup(file: Bytes, length: usize, lng: f64, lat: f64) -> i32;
    LookupPlace lookup_place: unsafe fn tzb_lookup_place(
        file: Bytes, length: usize, lng: f64, lat: f64
    ) -> i64;
    Ask ask: unsafe fn tzb_ask(
        record: Bytes, size: usize, file: Bytes, length: usize, lng: f64, lat: f64
    ) -> i64;
    AskPlace ask_place: unsafe fn tzb_ask_place(
        record: Bytes, size: usize, file: Bytes, length: usize, lng: f64, lat: f64
    ) -> i64;
    AskAll ask_all: unsafe fn tzb_ask_all(
        record: Bytes, size: usize, file: Bytes, length: usize,
        lng: f64, lat: f64, zones: *mut u32, places: usize
    ) -> i64;
    AskAllPlace ask_all_place: unsafe fn tzb_ask_all_place(
        record: Bytes, size: usize, file: Bytes, length: usize,
        lng: f64, lat: f64, zones: Numbers, places: usize
    ) -> i64;
    StripesNeed stripes_need: unsafe fn tzb_stripes_need(
        record: Bytes, size: usize, file: Bytes, length: usize
    ) -> i64;
    Stripes stripes: unsafe fn tzb_stripes(
        record: Bytes, size: usize, file: Bytes, length: usize, numbers: *mut u32, room: usize
    ) -> i64;
    ContainsStriped contains_striped: unsafe fn tzb_contains_striped(
        record: Bytes, size: usize, numbers: Numbers, count: usize, file: Bytes, length: usize,
        zone: u32, x: i32, y: i32
    ) -> i32;
    ContainsStripedPlace contains_striped_place: unsafe fn tzb_contains_striped_place(
        record: Bytes, size: usize, numbers: Numbers, count: usize, file: Bytes, length: usize,
        zone: u32, x: i32, y: i32
    ) -> i64;
    AskStriped ask_striped: unsafe fn tzb_ask_striped(
        record: Bytes, size: usize, numbers: Numbers, count: usize, file: Bytes, length: usize,
        lng: f64, lat: f64
    ) -> i64;
    AskStripedPlace ask_striped_place: unsafe fn tzb_ask_striped_place(
        record: Bytes, size: usize, numbers: Numbers, count: usize, file: Bytes, length: usize,
        lng: f64, lat: f64
    ) -> i64;
    AskAllStriped ask_all_striped: unsafe fn tzb_ask_all_striped(
        record: Bytes, size: usize, numbers: Numbers, count: usize, file: Bytes, length: usize,
        lng: f64, lat: f64, zones: *mut u32, places: usize
    ) -> i64;
    AskAllStripedPlace ask_all_striped_place: unsafe fn tzb_ask_all_striped_place(
        record: Bytes, size: usize, numbers: Numbers, count: usize, file: Bytes, length: usize,
        lng: f64, lat: f64, zones: Numbers, places: usize
    ) -> i64;
    FullCheck full_check: unsafe fn tzb_full_check(file: Bytes, length: usize) -> i32;
    FullCheckRule full_check_rule: unsafe fn tzb_full_check_rule(file: Bytes, length: usize) -> u32;
    Map map: unsafe fn tzb_map(
        file: Bytes, length: usize, zone: u32, out: *mut u8, room: usize
    ) -> i64;
    MapLength map_length: unsafe fn tzb_map_length(file: Bytes, length: usize, zone: u32) -> i64;
    JournalAsk journal_ask: unsafe fn tzb_journal_ask(
        record: Bytes, size: usize, file: Bytes, length: usize,
        places: u32, x: i32, y: i32, out: *mut u8, room: usize
    ) -> i32;
    JournalWrite journal_write: unsafe fn tzb_journal_write(
        places: u32, x: i32, y: i32, zones: Numbers, count: usize, reason: u32, out: *mut u8, room: usize
    ) -> i32;
    JournalRead journal_read: unsafe fn tzb_journal_read(
        places: u32, bytes: Bytes, length: usize,
        position: *mut i32, room: usize, zones: *mut u32, zones_room: usize
    ) -> i32;
    Number number: unsafe fn tzb_number(data: Bytes, length: usize, at: usize) -> i32;
    NumberLength number_length: unsafe fn tzb_number_length(
        data: Bytes, length: usize, at: usize
    ) -> i32;
    BoxContains box_contains: safe fn tzb_box_contains(
        minx: i32, miny: i32, maxx: i32, maxy: i32, x: f64, y: f64
    ) -> u32;
    BoxRelevant box_relevant: safe fn tzb_box_relevant(
        minx: i32, miny: i32, maxx: i32, maxy: i32, x: f64, y: f64
    ) -> u32;
    Crc32 crc32: unsafe fn tzb_crc32(data: Bytes, length: usize) -> u32;
    Utf8 utf8: unsafe fn tzb_utf8(data: Bytes, length: usize) -> u32;
    Ray ray: safe fn tzb_ray(ax: i32, ay: i32, bx: i32, by: i32, x: f64, y: f64) -> i32;
    Parity parity: safe fn tzb_parity(ax: i32, ay: i32, bx: i32, by: i32, x: f64, y: f64) -> u32;
    NextUp next_up: safe fn tzb_next_up(x: f64) -> f64;
}
