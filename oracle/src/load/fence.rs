//! Memory that is lent between two fences, pages that nobody may touch: a byte read or written past either end is a fault.
//! Each piece is seen twice: as it is lent, and as the run itself writes and looks at it.

use std::ffi::{c_char, c_void};
use std::fs::File;
use std::os::fd::{AsRawFd, FromRawFd};

unsafe extern "C" {
    fn mmap(at: *mut c_void, size: usize, may: i32, how: i32, file: i32, from: i64) -> *mut c_void;
    fn memfd_create(name: *const c_char, flags: u32) -> i32;
}

pub const PAGE: usize = 4096;

const NOTHING: i32 = 0;
const READ: i32 = 1;
const WRITE: i32 = 2;
const SHARED: i32 = 1;
const PRIVATE: i32 = 2;
const FIXED: i32 = 0x10;
const ANONYMOUS: i32 = 0x20;

unsafe fn map(at: *mut u8, size: usize, may: i32, how: i32, file: i32) -> *mut u8 {
    let got = unsafe { mmap(at.cast(), size, may, how, file, 0) };
    assert!(got as isize != -1, "no memory for a fence: {}", std::io::Error::last_os_error());
    got.cast()
}

/// The first bytes of a file, as memory: what is written there stays in the file, however the process ends.
pub fn of_file(file: &File, size: usize) -> *mut u8 {
    unsafe { map(std::ptr::null_mut(), size, READ | WRITE, SHARED, file.as_raw_fd()) }
}

struct Pages {
    lent: *mut u8,
    own: *mut u8,
    size: usize,
}

impl Pages {
    fn new(size: usize, may: i32) -> Self {
        assert!(size.is_multiple_of(PAGE));
        let nowhere = std::ptr::null_mut();
        unsafe {
            let file = File::from_raw_fd(memfd_create(c"lent".as_ptr(), 0));
            file.set_len(size as u64).expect("memory for a fence");
            let all = map(nowhere, size + 2 * PAGE, NOTHING, PRIVATE | ANONYMOUS, -1);
            let lent = map(all.add(PAGE), size, may, SHARED | FIXED, file.as_raw_fd());
            Self { lent, own: of_file(&file, size), size }
        }
    }

    /// Where bytes of this length start, if they end or start where the pages do.
    fn place(&self, length: usize, at_end: bool) -> usize {
        assert!(length <= self.size, "{length} bytes do not fit between the fences");
        if at_end { self.size - length } else { 0 }
    }
}

/// Bytes lent for reading: the pages cannot be written to but by the run itself.
pub struct Lent(Pages);

impl Lent {
    pub fn new(size: usize) -> Self {
        Self(Pages::new(size, READ))
    }

    /// Lays the bytes down, and lends them.
    pub fn put(&mut self, bytes: &[u8], at_end: bool) -> (*const u8, usize) {
        let place = self.0.place(bytes.len(), at_end);
        unsafe {
            std::ptr::copy_nonoverlapping(bytes.as_ptr(), self.0.own.add(place), bytes.len());
            (self.0.lent.add(place), bytes.len())
        }
    }
}

/// Memory lent for writing. Every byte of its pages holds the guard, lent or not.
pub struct Room {
    pages: Pages,
    guard: u64,
    place: usize,
}

impl Room {
    pub fn new() -> Self {
        let mut room = Self { pages: Pages::new(PAGE, READ | WRITE), guard: 1, place: 0 };
        room.fill(0);
        room
    }

    fn fill(&mut self, guard: u64) {
        if self.guard != guard {
            self.guard = guard;
            self.words().fill(guard);
        }
    }

    fn words(&mut self) -> &mut [u64] {
        unsafe { std::slice::from_raw_parts_mut(self.pages.own.cast(), self.pages.size / 8) }
    }

    fn bytes(&mut self) -> &mut [u8] {
        unsafe { std::slice::from_raw_parts_mut(self.pages.own, self.pages.size) }
    }

    /// Lends so many bytes. Since the last time nobody may have written there.
    pub fn lend(&mut self, length: usize, at_end: bool, guard: u64) -> Result<*mut u8, String> {
        self.take(0)?;
        self.fill(guard);
        self.place = self.pages.place(length, at_end);
        Ok(unsafe { self.pages.lent.add(self.place) })
    }

    /// Takes the first bytes of what was lent. All others must be as they were, also those around it.
    pub fn take(&mut self, written: usize) -> Result<Vec<u8>, String> {
        let (place, guard) = (self.place, self.guard);
        let taken = self.bytes()[place..place + written].to_vec();
        for at in place..place + written {
            self.bytes()[at] = guard.to_le_bytes()[at % 8];
        }
        if self.words().iter().all(|&word| word == guard) {
            return Ok(taken);
        }
        let changed =
            self.bytes().iter().enumerate().position(|(at, &b)| b != guard.to_le_bytes()[at % 8]);
        let at = changed.unwrap() as isize - place as isize;
        Err(format!("{written} bytes may be written, and byte {at} of the lent memory changed"))
    }
}
