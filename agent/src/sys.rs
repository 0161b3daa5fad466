//! The exports of `libtzb_c.a`, and each as a safe function over slices. Nothing else in this crate is `unsafe`.
//!
//! What `include/tzb.h` asks of a caller, Rust's references hold of themselves: a slice's pointer is never null, the
//! bytes stay for the call, and what is lent for writing overlaps nothing. The exports ask no more than that: each is
//! proved to answer any bytes and any numbers.

#![allow(unsafe_code)]

/// The size of an opened record, in bytes.
pub const RECORD: usize = 84;
/// The opened record, as bytes.
pub type Record = [u8; RECORD];

mod exports {
    #[rustfmt::skip]
    unsafe extern "C" {
        pub fn tzb_open(file: *const u8, length: usize, record: *mut u8, room: usize) -> i32;
        pub fn tzb_zone_count(record: *const u8, size: usize) -> i64;
        pub fn tzb_name(record: *const u8, size: usize, file: *const u8, length: usize, zone: u32, ends: *mut u64, room: usize) -> i32;
        pub fn tzb_contains(record: *const u8, size: usize, file: *const u8, length: usize, zone: u32, x: i32, y: i32) -> i32;
        pub fn tzb_decode(record: *const u8, size: usize, file: *const u8, length: usize, chunk: u32, out: *mut i32, room: usize) -> i64;
        pub fn tzb_ask(record: *const u8, size: usize, file: *const u8, length: usize, lng: f64, lat: f64) -> i64;
        pub fn tzb_ask_all(record: *const u8, size: usize, file: *const u8, length: usize, lng: f64, lat: f64, zones: *mut u32, places: usize) -> i64;
        pub fn tzb_stripes_need(record: *const u8, size: usize, file: *const u8, length: usize) -> i64;
        pub fn tzb_stripes(record: *const u8, size: usize, file: *const u8, length: usize, numbers: *mut u32, room: usize) -> i64;
        pub fn tzb_contains_striped(record: *const u8, size: usize, numbers: *const u32, count: usize, file: *const u8, length: usize, zone: u32, x: i32, y: i32) -> i32;
        pub fn tzb_ask_striped(record: *const u8, size: usize, numbers: *const u32, count: usize, file: *const u8, length: usize, lng: f64, lat: f64) -> i64;
        pub fn tzb_ask_all_striped(record: *const u8, size: usize, numbers: *const u32, count: usize, file: *const u8, length: usize, lng: f64, lat: f64, zones: *mut u32, places: usize) -> i64;
        pub fn tzb_ask_place(record: *const u8, size: usize, file: *const u8, length: usize, lng: f64, lat: f64) -> i64;
        pub fn tzb_ask_all_place(record: *const u8, size: usize, file: *const u8, length: usize, lng: f64, lat: f64, zones: *const u32, places: usize) -> i64;
        pub fn tzb_contains_place(record: *const u8, size: usize, file: *const u8, length: usize, zone: u32, x: i32, y: i32) -> i64;
        pub fn tzb_decode_place(record: *const u8, size: usize, file: *const u8, length: usize, chunk: u32, out: *const i32, room: usize) -> i64;
        pub fn tzb_ask_striped_place(record: *const u8, size: usize, numbers: *const u32, count: usize, file: *const u8, length: usize, lng: f64, lat: f64) -> i64;
        pub fn tzb_ask_all_striped_place(record: *const u8, size: usize, numbers: *const u32, count: usize, file: *const u8, length: usize, lng: f64, lat: f64, zones: *const u32, places: usize) -> i64;
        pub fn tzb_contains_striped_place(record: *const u8, size: usize, numbers: *const u32, count: usize, file: *const u8, length: usize, zone: u32, x: i32, y: i32) -> i64;
        pub fn tzb_full_check(file: *const u8, length: usize) -> i32;
        pub fn tzb_full_check_rule(file: *const u8, length: usize) -> u32;
        pub fn tzb_map(file: *const u8, length: usize, zone: u32, out: *mut u8, room: usize) -> i64;
        pub fn tzb_map_length(file: *const u8, length: usize, zone: u32) -> i64;
        pub fn tzb_journal_ask(record: *const u8, size: usize, file: *const u8, length: usize, places: u32, x: i32, y: i32, out: *mut u8, room: usize) -> i32;
        pub fn tzb_journal_write(places: u32, x: i32, y: i32, zones: *const u32, count: usize, reason: u32, out: *mut u8, room: usize) -> i32;
        pub fn tzb_journal_read(places: u32, bytes: *const u8, length: usize, position: *mut i32, numbers: usize, zones: *mut u32, room: usize) -> i32;
    }
}

/// Calls an export: numbers that come first, slices that are lent for reading, then what else there is.
macro_rules! ask {
    ($export:ident, $($first:ident,)* [$($lent:ident),+] $(, $more:expr)*) => {
        // SAFETY: all are live slices, given by their own pointers and lengths, and so is what more is lent.
        unsafe { exports::$export($($first,)* $($lent.as_ptr(), $lent.len(),)+ $($more),*) }
    };
}

pub fn open(file: &[u8], record: &mut Record) -> i32 {
    ask!(tzb_open, [file], record.as_mut_ptr(), record.len())
}

pub fn zone_count(record: &Record) -> i64 {
    ask!(tzb_zone_count, [record])
}

pub fn name(record: &Record, file: &[u8], zone: u32, ends: &mut [u64; 2]) -> i32 {
    ask!(tzb_name, [record, file], zone, ends.as_mut_ptr(), ends.len())
}

pub fn contains(record: &Record, file: &[u8], zone: u32, x: i32, y: i32) -> i32 {
    ask!(tzb_contains, [record, file], zone, x, y)
}

pub fn decode(record: &Record, file: &[u8], chunk: u32, out: &mut [i32]) -> i64 {
    ask!(tzb_decode, [record, file], chunk, out.as_mut_ptr(), out.len())
}

pub fn ask(record: &Record, file: &[u8], lng: f64, lat: f64) -> i64 {
    ask!(tzb_ask, [record, file], lng, lat)
}

pub fn ask_all(record: &Record, file: &[u8], lng: f64, lat: f64, zones: &mut [u32]) -> i64 {
    ask!(tzb_ask_all, [record, file], lng, lat, zones.as_mut_ptr(), zones.len())
}

pub fn stripes_need(record: &Record, file: &[u8]) -> i64 {
    ask!(tzb_stripes_need, [record, file])
}

pub fn stripes(record: &Record, file: &[u8], numbers: &mut [u32]) -> i64 {
    ask!(tzb_stripes, [record, file], numbers.as_mut_ptr(), numbers.len())
}

#[rustfmt::skip]
pub fn contains_striped(record: &Record, numbers: &[u32], file: &[u8], zone: u32, x: i32, y: i32) -> i32 {
    ask!(tzb_contains_striped, [record, numbers, file], zone, x, y)
}

pub fn ask_striped(record: &Record, numbers: &[u32], file: &[u8], lng: f64, lat: f64) -> i64 {
    ask!(tzb_ask_striped, [record, numbers, file], lng, lat)
}

#[rustfmt::skip]
pub fn ask_all_striped(record: &Record, numbers: &[u32], file: &[u8], lng: f64, lat: f64, zones: &mut [u32]) -> i64 {
    ask!(tzb_ask_all_striped, [record, numbers, file], lng, lat, zones.as_mut_ptr(), zones.len())
}

// Each question once more: the place of its refusal in the file, or -1 where there is none. What is lent is only read.

pub fn ask_place(record: &Record, file: &[u8], lng: f64, lat: f64) -> i64 {
    ask!(tzb_ask_place, [record, file], lng, lat)
}

pub fn ask_all_place(record: &Record, file: &[u8], lng: f64, lat: f64, zones: &[u32]) -> i64 {
    ask!(tzb_ask_all_place, [record, file], lng, lat, zones.as_ptr(), zones.len())
}

pub fn contains_place(record: &Record, file: &[u8], zone: u32, x: i32, y: i32) -> i64 {
    ask!(tzb_contains_place, [record, file], zone, x, y)
}

pub fn decode_place(record: &Record, file: &[u8], chunk: u32, out: &[i32]) -> i64 {
    ask!(tzb_decode_place, [record, file], chunk, out.as_ptr(), out.len())
}

pub fn ask_striped_place(record: &Record, numbers: &[u32], file: &[u8], lng: f64, lat: f64) -> i64 {
    ask!(tzb_ask_striped_place, [record, numbers, file], lng, lat)
}

#[rustfmt::skip]
pub fn ask_all_striped_place(record: &Record, numbers: &[u32], file: &[u8], lng: f64, lat: f64, zones: &[u32]) -> i64 {
    ask!(tzb_ask_all_striped_place, [record, numbers, file], lng, lat, zones.as_ptr(), zones.len())
}

#[rustfmt::skip]
pub fn contains_striped_place(record: &Record, numbers: &[u32], file: &[u8], zone: u32, x: i32, y: i32) -> i64 {
    ask!(tzb_contains_striped_place, [record, numbers, file], zone, x, y)
}

pub fn full_check(file: &[u8]) -> i32 {
    ask!(tzb_full_check, [file])
}

pub fn full_check_rule(file: &[u8]) -> u32 {
    ask!(tzb_full_check_rule, [file])
}

pub fn map(file: &[u8], zone: u32, out: &mut [u8]) -> i64 {
    ask!(tzb_map, [file], zone, out.as_mut_ptr(), out.len())
}

pub fn map_length(file: &[u8], zone: u32) -> i64 {
    ask!(tzb_map_length, [file], zone)
}

#[rustfmt::skip]
pub fn journal_ask(record: &Record, file: &[u8], places: u32, x: i32, y: i32, out: &mut [u8]) -> i32 {
    ask!(tzb_journal_ask, [record, file], places, x, y, out.as_mut_ptr(), out.len())
}

#[rustfmt::skip]
pub fn journal_write(places: u32, x: i32, y: i32, zones: &[u32], reason: u32, out: &mut [u8]) -> i32 {
    ask!(tzb_journal_write, places, x, y, [zones], reason, out.as_mut_ptr(), out.len())
}

#[rustfmt::skip]
pub fn journal_read(places: u32, bytes: &[u8], position: &mut [i32], zones: &mut [u32]) -> i32 {
    ask!(tzb_journal_read, places, [bytes], position.as_mut_ptr(), position.len(), zones.as_mut_ptr(), zones.len())
}

#[cfg(test)]
mod tests {
    use super::*;

    /// The sample's record, its bytes, and the same with a first number that is longer than it need be, which is at this place.
    fn sample() -> (Record, Vec<u8>, Vec<u8>, usize) {
        let file = std::fs::read("../sample/real-ne.tzb").unwrap();
        let mut record = [0; RECORD];
        assert_eq!(open(&file, &mut record), 0);
        let points = 1_046_448;
        let mut broken = file.clone();
        broken[points..points + 2].copy_from_slice(&[0x80, 0x00]);
        (record, file, broken, points)
    }

    #[test]
    fn the_place_of_a_decoding() {
        let (record, file, broken, points) = sample();
        let mut room = [7; 1000];
        assert_eq!(decode(&record, &broken, 0, &mut room), -1039);
        assert_eq!(decode_place(&record, &broken, 0, &room), points as i64);
        assert_eq!(room, [7; 1000]);
        // An answer, a chunk that is not there, no room, and bytes that end before.
        assert_eq!(decode_place(&record, &file, 0, &room), -1);
        assert_eq!(decode_place(&record, &broken, 1, &room), -1);
        assert_eq!(decode_place(&record, &broken, 5408, &room), -1);
        assert_eq!(decode_place(&record, &broken, 0, &room[..9]), -1);
        assert_eq!(decode_place(&record, &broken[..points], 0, &room), -1);
    }

    /// A zone, none, a list, and the refusals of a zone number, of the room and of bytes that end before.
    #[test]
    fn no_place_where_there_is_no_such_refusal() {
        let (record, file, _, _) = sample();
        let mut numbers = vec![0; stripes_need(&record, &file) as usize];
        assert_eq!(stripes(&record, &file, &mut numbers), numbers.len() as i64);
        let zones = [7; 15];
        let positions = [(8.68, 50.11), (139.7, 35.7), (-30.0, 0.0), (200.0, 0.0), (f64::NAN, 0.0)];
        for ((lng, lat), file) in positions
            .into_iter()
            .flat_map(|at| [(at, &file[..]), (at, &file[..700_000]), (at, &[])])
        {
            let told = [
                ask_place(&record, file, lng, lat),
                ask_all_place(&record, file, lng, lat, &zones),
                ask_all_place(&record, file, lng, lat, &[]),
                ask_striped_place(&record, &numbers, file, lng, lat),
                ask_striped_place(&record, &[], file, lng, lat),
                ask_all_striped_place(&record, &numbers, file, lng, lat, &zones),
                ask_all_striped_place(&record, &numbers, file, lng, lat, &[]),
            ];
            assert_eq!(told, [-1; 7], "{lng} {lat}");
        }
        for zone in [0, 126, 481, u32::MAX] {
            let told = [
                contains_place(&record, &file, zone, 868_000, 5_011_000),
                contains_striped_place(&record, &numbers, &file, zone, 868_000, 5_011_000),
            ];
            assert_eq!(told, [-1; 2], "{zone}");
        }
    }
}
