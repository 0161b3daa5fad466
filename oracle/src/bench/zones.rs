//! The largest files: a point that lies in all of 65,535 zones of a file without GRID, a group of 65,535 chunks, and many records that name the same chunks. The best of three runs of each side, in milliseconds of processor time, so that other work on the machine does not count.

use crate::file::{
    Chunks, Draft, GROUPDIR, NAMES, Op, Part, RINGDIR, RINGOPS, Shape, TZDIR, names, put, shuffle,
};
use crate::port::exports::*;
use crate::port::opening::refusal;
use crate::random::Random;
use crate::{original, port};
use std::hint::black_box;

const MOST: usize = 65_535;
/// How many records name the same chunks.
const SHARED: usize = 10;
const RUNS: usize = 3;

pub fn run() {
    println!("{:<58}{:>12}{:>12}", "item, ms", "port", "original");
    for (order, all) in orders() {
        of_zones(order, &file_of(square().parts(), &all));
    }
    let one = [b"Z".to_vec()];
    for points in [1, 2, 64] {
        let parts = shape_of(zigzag(points)).parts();
        of_chunks(&format!("{MOST} chunks of {points}"), &file_of(parts, &one));
    }
    let parts = shape_of(rising()).parts();
    of_chunks(&format!("{MOST} flat chunks"), &file_of(parts, &one));
    let [groups, ring] = shared();
    of_chunks(&format!("{MOST} chunks, {SHARED} groups of them"), &file_of(groups, &one));
    of_chunks(&format!("{MOST} chunks, {SHARED} times in a ring"), &file_of(ring, &one));
}

type Names = Vec<Vec<u8>>;

/// A name of a zone for each number, with the same letters before it.
fn named(before: &str, numbers: impl Iterator<Item = usize>) -> Names {
    numbers.map(|n| format!("{before}{n:05}").into_bytes()).collect()
}

fn orders() -> [(&'static str, Names); 6] {
    let mut mixed: Vec<usize> = (0..MOST).collect();
    shuffle(&mut Random::new(1), &mut mixed);
    let long = "Zone/".repeat(20);
    [
        ("names rising", named("Zone/", 0..MOST)),
        ("names falling", named("Zone/", (0..MOST).rev())),
        ("names shuffled", named("Zone/", mixed.iter().copied())),
        ("names all the same", vec![b"Zone/00000".to_vec(); MOST]),
        ("names of 105 bytes, falling", named(&long, (0..MOST).rev())),
        ("names of 105 bytes, shuffled", named(&long, mixed.iter().copied())),
    ]
}

/// One ring of one group.
fn shape_of(chunks: Chunks) -> Shape {
    let mut shape = Shape::default();
    let group = shape.add_group(chunks);
    shape.zones.push(vec![vec![vec![Op { group, turned: false }]]]);
    shape
}

fn square() -> Shape {
    let corners = [(-1000, -1000), (1000, -1000), (1000, 1000), (-1000, 1000), (-1000, -1000)];
    shape_of(Chunks(vec![corners.to_vec()]))
}

/// So many points in each chunk, in turn below and above on either side of a point, so that it lies in every chunk's box.
fn zigzag(points: usize) -> Chunks {
    let point = |i: usize| if i % 2 == 0 { (-1000, -1000) } else { (1000, 1000) };
    let chunk = |c: usize| (c * points..(c + 1) * points).map(point).collect();
    Chunks((0..MOST).map(chunk).collect())
}

/// A point in each chunk, each one higher than the last.
fn rising() -> Chunks {
    let point = |i: usize| (if i.is_multiple_of(2) { -1000 } else { 1000 }, i as i32 - 30_000);
    Chunks((0..MOST).map(|i| vec![point(i)]).collect())
}

/// The same chunks in so many groups, of which the ring has one; and their one group so many times in the ring.
fn shared() -> [Vec<Part>; 2] {
    let parts = shape_of(zigzag(1)).parts();
    let bytes = |typ| parts.iter().find(|part| part.typ == typ).unwrap().bytes.clone();
    let with = |typ, bytes| {
        let other = |part: &Part| part.typ != typ;
        let rest = parts.iter().filter(|part| other(part)).cloned();
        rest.chain([Part { typ, bytes, gap: 0 }]).collect::<Vec<Part>>()
    };
    let groups = with(GROUPDIR, bytes(GROUPDIR).repeat(SHARED));
    let mut ring = bytes(RINGDIR);
    put(&mut ring, 4, (SHARED * (MOST - 1)) as u32);
    put(&mut ring, 8, SHARED as u32);
    let mut turns = with(RINGDIR, ring);
    turns.iter_mut().find(|part| part.typ == RINGOPS).unwrap().bytes =
        bytes(RINGOPS).repeat(SHARED);
    [groups, turns]
}

/// As many zones as there are names, each with the one polygon.
fn file_of(mut parts: Vec<Part>, all: &[Vec<u8>]) -> Vec<u8> {
    let zones = parts.iter_mut().find(|part| part.typ == TZDIR).unwrap();
    zones.bytes = zones.bytes.repeat(all.len());
    parts.push(Part { typ: NAMES, bytes: names(&[], all), gap: 0 });
    Draft::new(all.len() as u32, parts).lay()
}

fn of_zones(order: &str, file: &[u8]) {
    of_file(order, file);
    let opened = port::opening::open(file).expect("a file that opens");
    let (r, size, f, length) = opened.parts();
    let other = original::opening::open(file).ok().expect("a file that opens");
    let mut ask = || unsafe { tzb_ask(r, size, f, length, 0.0, 0.0) } as u64;
    row(&format!("{order}: ask"), &mut ask, Some(&mut || other.zone(0.0, 0.0) as u64));
    let mut places = vec![0u32; MOST];
    let mut all = || {
        let (to, room) = (places.as_mut_ptr(), places.len());
        let count = unsafe { tzb_ask_all(r, size, f, length, 0.0, 0.0, to, room) };
        listed(&places[..count as usize])
    };
    let mut list = Vec::new();
    let mut other_all = || {
        other.zones(0.0, 0.0, &mut list);
        listed(&list)
    };
    row(&format!("{order}: ask_all"), &mut all, Some(&mut other_all));
    let mut refused = || unsafe { tzb_ask_all(r, size, f, length, 0.0, 0.0, to_none(), 0) } as u64;
    row(&format!("{order}: ask_all, no places: 46"), &mut refused, None);
}

fn to_none() -> *mut u32 {
    std::ptr::NonNull::dangling().as_ptr()
}

/// A number for a list of zones, in its order.
fn listed(zones: &[u32]) -> u64 {
    assert_eq!(zones.len(), MOST, "a point in every zone");
    zones.iter().fold(0, |sum: u64, &zone| sum.wrapping_mul(31).wrapping_add(zone.into()))
}

fn of_chunks(what: &str, file: &[u8]) {
    of_file(what, file);
    let opened = port::opening::open(file).expect("a file that opens");
    let (r, size, f, length) = opened.parts();
    let other = original::opening::open(file).ok().expect("a file that opens");
    let mut contains = || unsafe { tzb_contains(r, size, f, length, 0, -1, 0) } as u64;
    row(&format!("{what}: contains"), &mut contains, Some(&mut || other.is_in(0, -1, 0) as u64));
    of_stripes(what, file, other);
}

/// Building stripes, where they fit into half a gigabyte, and asking by them. The original has them in every row.
fn of_stripes(what: &str, file: &[u8], mut other: original::opening::Opened) {
    let opened = port::opening::open(file).expect("a file that opens");
    let (r, size, f, length) = opened.parts();
    let mut measure = || unsafe { tzb_stripes_need(r, size, f, length) } as u64;
    let need = measure();
    row(&format!("{what}: the need, {need} numbers"), &mut measure, None);
    if need > 1 << 27 {
        return;
    }
    let mut numbers = vec![0u32; need as usize];
    let (to, room) = (numbers.as_mut_ptr(), numbers.len());
    let mut build = || unsafe { tzb_stripes(r, size, f, length, to, room) } as u64;
    let mut other_build = || other.build_stripes().map_or(0, |()| need);
    row(&format!("{what}: building them"), &mut build, Some(&mut other_build));
    let (n, count) = (numbers.as_ptr(), numbers.len());
    let mut contains =
        || unsafe { tzb_contains_striped(r, size, n, count, f, length, 0, -1, 0) } as u64;
    let name = format!("{what}: contains by stripes");
    row(&name, &mut contains, Some(&mut || other.is_in(0, -1, 0) as u64));
}

/// Opening and the full check, which the original has not.
fn of_file(what: &str, file: &[u8]) {
    let (data, length) = (file.as_ptr(), file.len());
    let mut open = || unsafe { refusal(data, length) }.into();
    let mut other = || original::opening::open(file).err().unwrap_or(0).into();
    row(&format!("{what}: opening {length} bytes"), &mut open, Some(&mut other));
    let mut check = || unsafe { tzb_full_check(data, length) } as u64;
    assert_eq!(check(), 0, "a file that the full check accepts");
    row(&format!("{what}: full check"), &mut check, None);
}

fn row(name: &str, port: &mut dyn FnMut() -> u64, original: Option<&mut dyn FnMut() -> u64>) {
    let answer = port();
    let best = |f: &mut dyn FnMut() -> u64| (0..RUNS).map(|_| time(f)).min().unwrap();
    let told = |micros: i64| format!("{:.1}", micros as f64 / 1e3);
    let port = told(best(port));
    let original = original.map_or("-".to_owned(), |f| {
        assert_eq!(answer, f(), "{name}: the answers differ");
        told(best(f))
    });
    println!("{name:<58}{port:>12}{original:>12}");
}

unsafe extern "C" {
    /// C's own: the processor time of the program, on Linux in millionths of a second.
    safe fn clock() -> i64;
}

/// How many microseconds of processor time it takes.
pub fn time(f: &mut dyn FnMut() -> u64) -> i64 {
    let start = clock();
    black_box(f());
    clock() - start
}
