//! Looks after a run: tells the input where a call faults, or takes too long, and keeps the number of the present one in a file.

use super::fence;
use super::inputs::Input;
use crate::port::exports::NAMES;
use std::arch::naked_asm;
use std::fs::{self, File};
use std::sync::atomic::{AtomicPtr, AtomicU64, AtomicUsize, Ordering::Relaxed};

unsafe extern "C" {
    fn signal(number: i32, handler: usize) -> usize;
    fn alarm(seconds: u32) -> u32;
    fn write(file: i32, bytes: *const u8, length: usize) -> isize;
    fn _exit(status: i32) -> !;
}

/// The seed and the number of the present input, eight bytes each, little-endian.
pub const AT: &str = "target/load.at";
/// The lent file of an input that failed.
const FOUND: &str = "target/load.bin";

/// SIGILL, SIGTRAP, SIGABRT, SIGBUS, SIGFPE, SIGSEGV.
const FAULTS: [i32; 6] = [4, 5, 6, 7, 8, 11];
const ALARM: i32 = 14;

static SEED: AtomicU64 = AtomicU64::new(0);
static NUMBER: AtomicU64 = AtomicU64::new(0);
static INPUT: AtomicPtr<Input> = AtomicPtr::new(std::ptr::null_mut());
static KEPT: AtomicPtr<u64> = AtomicPtr::new(std::ptr::null_mut());
/// The export that is called, and how many calls were begun.
static EXPORT: AtomicUsize = AtomicUsize::new(0);
static CALLS: AtomicU64 = AtomicU64::new(0);
/// The calls at the last tick, the ticks since they changed, and how many there may be.
static SEEN: AtomicU64 = AtomicU64::new(0);
static TICKS: AtomicU64 = AtomicU64::new(0);
static LIMIT: AtomicU64 = AtomicU64::new(0);

pub fn start(seed: u64, limit: u64) {
    SEED.store(seed, Relaxed);
    LIMIT.store(limit, Relaxed);
    fs::create_dir_all("target").expect("the folder target");
    let file = File::options().read(true).write(true).create(true).truncate(true).open(AT);
    let file = file.expect("a file for the present number");
    file.set_len(16).expect("sixteen bytes");
    let kept = fence::of_file(&file, 16).cast::<u64>();
    unsafe { kept.write_volatile(seed.to_le()) };
    KEPT.store(kept, Relaxed);
    for number in FAULTS {
        unsafe { signal(number, faulted as *const () as usize) };
    }
    unsafe {
        signal(ALARM, tick as *const () as usize);
        alarm(1);
    }
}

pub fn stop() {
    unsafe { alarm(0) };
    INPUT.store(std::ptr::null_mut(), Relaxed);
}

/// The input that is put now; it must live until the next one.
pub fn now(number: u64, input: &Input) {
    NUMBER.store(number, Relaxed);
    INPUT.store(std::ptr::from_ref(input).cast_mut(), Relaxed);
    unsafe { KEPT.load(Relaxed).add(1).write_volatile(number.to_le()) };
}

/// A call begins.
pub fn call(export: usize) {
    EXPORT.store(export, Relaxed);
    CALLS.store(CALLS.load(Relaxed) + 1, Relaxed);
}

/// What the kernel calls. An emulator may call it with a stack that is not aligned as Rust's code wants it.
#[unsafe(naked)]
extern "C" fn faulted(_: i32) {
    naked_asm!("push rbp", "mov rbp, rsp", "and rsp, -16", "call {}", "ud2", sym told)
}

#[unsafe(naked)]
extern "C" fn tick(_: i32) {
    naked_asm!("push rbp", "mov rbp, rsp", "and rsp, -16", "call {}", "leave", "ret", sym ticked)
}

extern "C" fn told(number: i32) {
    tell(&format!("signal {number}"))
}

extern "C" fn ticked(_: i32) {
    let calls = CALLS.load(Relaxed);
    let ticks = if SEEN.swap(calls, Relaxed) == calls { TICKS.load(Relaxed) + 1 } else { 0 };
    TICKS.store(ticks, Relaxed);
    let limit = LIMIT.load(Relaxed);
    if ticks >= limit {
        tell(&format!("the call takes longer than {limit} s"));
    }
    unsafe { alarm(1) };
}

/// Tells the present input and what is wrong, and ends the run. Called from a fault too, so it goes round the lock of the output.
pub fn tell(what: &str) -> ! {
    let (seed, number) = (SEED.load(Relaxed), NUMBER.load(Relaxed));
    let name = NAMES[EXPORT.load(Relaxed)];
    let mut text = format!("seed {seed}, input {number}, {name}: {what}\n");
    if let Some(input) = unsafe { INPUT.load(Relaxed).as_ref() } {
        let written = fs::write(FOUND, &input.file).map_or("not written", |()| FOUND);
        text += &format!("{input:?}\nits file: {written}\n");
    }
    text += &format!("to put it again: oracle load 1 {seed} --from {number}\n");
    unsafe {
        write(1, text.as_ptr(), text.len());
        _exit(1)
    }
}
