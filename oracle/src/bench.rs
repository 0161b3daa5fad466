//! The port's exports and the original on the same inputs, in one run. Each side is called once per item through a C function.

mod asking;
pub mod hostile;
mod journal;
mod large;
pub mod map;
mod mixed;
pub mod rings;
mod striped;
pub mod zones;

use crate::bytes;
use crate::original;
use crate::port::exports::*;
use crate::port::opening::refusal;
use crate::random::Random;
use crate::scene::{KINDS, Scene};
use std::hint::black_box;
use std::path::Path;
use std::sync::OnceLock;
use std::time::{Duration, Instant};

const ROUNDS: usize = 40;

/// Only rows with this in their name are measured.
static WANTED: OnceLock<String> = OnceLock::new();

// The original behind calls as costly as those of the port.

#[inline(never)]
unsafe extern "C" fn original_crc32(data: *const u8, length: usize) -> u32 {
    original::crc32(unsafe { std::slice::from_raw_parts(data, length) })
}

#[inline(never)]
unsafe extern "C" fn original_open(data: *const u8, length: usize) -> u32 {
    original::opening::open(unsafe { std::slice::from_raw_parts(data, length) }).err().unwrap_or(0)
}

#[inline(never)]
unsafe extern "C" fn original_utf8(data: *const u8, length: usize) -> u32 {
    original::utf8(unsafe { std::slice::from_raw_parts(data, length) })
}

#[inline(never)]
unsafe extern "C" fn original_number(data: *const u8, length: usize, at: usize) -> i32 {
    original::reading(unsafe { std::slice::from_raw_parts(data, length) }, at).number
}

#[inline(never)]
unsafe extern "C" fn original_number_length(data: *const u8, length: usize, at: usize) -> i32 {
    original::reading(unsafe { std::slice::from_raw_parts(data, length) }, at).length
}

#[inline(never)]
extern "C" fn original_ray(ax: i32, ay: i32, bx: i32, by: i32, x: f64, y: f64) -> i32 {
    original::ray_at(ax, ay, bx, by, x, y)
}

type OfBytes = unsafe extern "C" fn(*const u8, usize) -> u32;
type OfPlace = unsafe extern "C" fn(*const u8, usize, usize) -> i32;
type OfScene = extern "C" fn(i32, i32, i32, i32, f64, f64) -> i32;

pub fn run(file: Option<&Path>, wanted: &str) {
    WANTED.get_or_init(|| wanted.to_string());
    let mut random = Random::new(1);
    let file = file.map(|path| std::fs::read(path).expect("the file"));
    let whole = file.clone().unwrap_or_else(|| random.bytes(2_000_000));
    let points = match &file {
        Some(file) => section(file, 9).to_vec(),
        None => bytes::numbers(&mut random, 500_000, false),
    };
    let ascii: Vec<u8> = (0..1_000_000).map(|_| 32 + random.byte() % 95).collect();
    let mixed = bytes::text(&mut random, 100_000, false);
    let names: Vec<Vec<u8>> =
        (0..20_000).map(|i| ascii[i * 20..i * 20 + 8 + i % 20].to_vec()).collect();

    head();
    if let Some(file) = &file {
        of_file(file);
    }
    for (kind, one, two) in mixed::MIXES {
        asking::decoding(kind, &mixed::file(one, two));
    }
    of_bytes("CRC-32", &[whole], tzb_crc32, original_crc32);
    of_bytes("CRC-32, messages of one byte", &vec![vec![0]; 2_000], tzb_crc32, original_crc32);
    of_bytes("UTF-8, ASCII", &[ascii], tzb_utf8, original_utf8);
    of_bytes("UTF-8, mixed text", &[mixed], tzb_utf8, original_utf8);
    of_bytes("UTF-8, names of 8 to 27 letters", &names, tzb_utf8, original_utf8);
    of_numbers(&points);
    for (kind, make) in KINDS {
        let scenes: Vec<Scene> = (0..50_000).map(|_| make(&mut random)).collect();
        of_scenes(kind, &scenes, tzb_ray, original_ray);
    }
    let far: Vec<Scene> =
        (0..50_000).map(|_| Scene { y: 9e6, ..KINDS[0].1(&mut random) }).collect();
    of_scenes("above the segment", &far, tzb_ray, original_ray);
}

/// Opening and asking a file with large groups.
pub fn large(wanted: &str) {
    WANTED.get_or_init(|| wanted.to_string());
    head();
    of_file(&large::file());
}

fn head() {
    println!("{:<46}{:>12}{:>12}{:>8}", "item", "port", "original", "ratio");
}

fn of_file(file: &[u8]) {
    of_bytes("opening", &[file.to_vec()], refusal, original_open);
    asking::run(file);
}

fn of_bytes(name: &str, all: &[Vec<u8>], port: OfBytes, original: OfBytes) {
    let total: usize = all.iter().map(Vec::len).sum();
    let ask = |f: OfBytes| all.iter().map(|b| u64::from(unsafe { f(b.as_ptr(), b.len()) })).sum();
    row(&format!("{name}, a byte"), total, &mut || ask(port), &mut || ask(original));
}

fn of_numbers(data: &[u8]) {
    let walk = |number: OfPlace, length: OfPlace| {
        let (mut at, mut count, mut sum) = (0, 0, 0u64);
        while at < data.len() {
            let n = unsafe { length(data.as_ptr(), data.len(), at) };
            sum = sum.wrapping_add(unsafe { number(data.as_ptr(), data.len(), at) } as u64);
            assert!(n > 0, "the stream breaks at {at}");
            at += n as usize;
            count += 1;
        }
        (sum, count)
    };
    let (_, count) = walk(original_number, original_number_length);
    let mut port = || walk(tzb_number, tzb_number_length).0;
    let mut original = || walk(original_number, original_number_length).0;
    row("numbers and their lengths, each", count, &mut port, &mut original);
}

fn of_scenes(kind: &str, scenes: &[Scene], port: OfScene, original: OfScene) {
    let ask = |f: OfScene| scenes.iter().map(|s| f(s.ax, s.ay, s.bx, s.by, s.x, s.y) as u64).sum();
    row(&format!("ray, {kind}, each"), scenes.len(), &mut || ask(port), &mut || ask(original));
}

/// Turns of both, the best of each: nanoseconds an item, and how many times the original's time fits the port's.
fn row(name: &str, items: usize, port: &mut dyn FnMut() -> u64, original: &mut dyn FnMut() -> u64) {
    if !is_wanted(name) {
        return;
    }
    assert_eq!(port(), original(), "{name}: the answers differ");
    if std::env::var_os("COUNTS").is_some() {
        return counted(name, port, original);
    }
    let (mut p, mut o) = (Duration::MAX, Duration::MAX);
    for _ in 0..ROUNDS {
        p = p.min(time(port));
        o = o.min(time(original));
    }
    let each = |d: Duration| d.as_secs_f64() * 1e9 / items as f64;
    let ratio = o.as_secs_f64() / p.as_secs_f64();
    println!("{name:<46}{:>9.2} ns{:>9.2} ns{ratio:>8.2}", each(p), each(o));
}

unsafe extern "C" {
    fn syscall(number: i64, ...) -> i64;
}

/// Tells the emulator's plugin (count.c) that a side begins or ends; to the system the call is unknown, and does nothing.
fn mark() {
    unsafe { syscall(100_000) };
}

/// Where instructions are counted and no time is taken: each side once, between marks.
fn counted(name: &str, port: &mut dyn FnMut() -> u64, original: &mut dyn FnMut() -> u64) {
    mark();
    black_box(port());
    mark();
    black_box(original());
    mark();
    println!("{name}");
}

fn is_wanted(name: &str) -> bool {
    WANTED.get().is_none_or(|wanted| name.contains(wanted))
}

fn time(f: &mut dyn FnMut() -> u64) -> Duration {
    let start = Instant::now();
    black_box(f());
    start.elapsed()
}

/// The bytes of a file's section, by its type. The file is taken to be whole.
fn section(file: &[u8], typ: u32) -> &[u8] {
    let word = |at: usize| u32::from_le_bytes(file[at..at + 4].try_into().unwrap());
    let count = word(20) as usize;
    let entry = (0..count).map(|i| 64 + 16 * i).find(|&at| word(at) == typ).expect("the section");
    let from = word(entry + 4) as usize;
    &file[from..from + word(entry + 8) as usize]
}
