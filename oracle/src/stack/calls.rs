//! Inputs that take each way through the exports that takes stack, and each as a call.

use super::own::{Call, WORDS};
use crate::file::damage::Aim;
use crate::file::{self, Chunks, Draft, Op, Part, Shape, striped, tables};
use crate::port::exports::{Export, Exports, PORT};
use crate::port::opening::SIZE;
use crate::random::Random;

const SAMPLE: &str = concat!(env!("CARGO_MANIFEST_DIR"), "/../sample/real-ne.tzb");

/// Memory that is lent for writing.
pub struct Lent {
    record: Vec<u8>,
    ends: Vec<u64>,
    points: Vec<i32>,
    zones: Vec<u32>,
    numbers: Vec<u32>,
    text: Vec<u8>,
}

impl Lent {
    pub fn new() -> Self {
        let record = vec![0; SIZE];
        Self {
            record,
            ends: vec![0; 2],
            points: vec![0; 2 * 65_535],
            zones: vec![0; 65_535],
            numbers: vec![0; 0x10_0000],
            text: vec![0; 0x40_0000],
        }
    }
}

/// Hands every call of every input on, with the place of its export.
pub fn all(
    random: &mut Random,
    turns: usize,
    lent: &mut Lent,
    each: &mut impl FnMut(usize, &Call),
) {
    let fixed = fixed(random);
    for file in &fixed {
        of_file(random, file, 4, lent, each);
    }
    let sample = std::fs::read(SAMPLE).expect("the sample is read");
    of_file(random, &sample, turns, lent, each);
    for _ in 0..turns {
        let valid = match random.below(3) {
            0 => file::some(random).lay(),
            1 => file::on_lattice(random).lay(),
            _ => tables::valid(random),
        };
        of_file(random, &valid, 4, lent, each);
        let aim = Aim::at(&valid);
        for count in 1..4 {
            let damaged = aim.damage(random, &valid, count);
            of_file(random, &damaged, 2, lent, each);
        }
        let wrong = random.below(4);
        let table = tables::table(random, false, wrong);
        of_file(random, &table, 1, lent, each);
    }
    for _ in 0..100 * (1 + turns) {
        parts(random, each);
    }
}

/// Each way that takes stack of its own.
fn fixed(random: &mut Random) -> Vec<Vec<u8>> {
    let mut files = vec![Vec::new(), vec![0; 68]];
    files.extend(file::bases());
    files.extend(file::cases().into_iter().map(|(_, file)| file));
    files.extend(file::broken::files().into_iter().map(|(_, file)| file));
    files.extend(file::chunks().into_iter().map(|(_, file)| file));
    files.extend(file::departing().into_iter().map(|(_, file)| file));
    // Zones that have a text: of one group and of several, of long rings too.
    files.extend(file::maps::cases().into_iter().chain(file::maps::long()).map(|case| case.file));
    // Groups of many chunks, built into stripes or not.
    files.extend(striped::cases().into_iter().map(|case| case.file));
    files.extend((0..20).map(|_| striped::some(random).lay()));
    // Many zones at a point, more than the 16 that are kept, and more than the 256 of a block.
    files.extend([17, 300, 1000].map(many_zones));
    // Chunks of more points than the 256 that are kept, behind each other.
    files.extend(
        [(256, 1), (257, 1), (3000, 2), (300, 9)].map(|(points, count)| long_chunks(points, count)),
    );
    // Long tables in files of more than 16 KB: the map, and sixteen tables of the sum.
    for wrong in [0, 0, 1, 3] {
        files.push(tables::table(random, true, wrong));
        files.push(padded(random, 20_000));
    }
    files
}

/// A square that each of so many zones has.
fn many_zones(count: usize) -> Vec<u8> {
    let corners = [(-1000, -1000), (1000, -1000), (1000, 1000), (-1000, 1000), (-1000, -1000)];
    let mut parts = one_ring(Chunks(vec![corners.to_vec()]));
    let zones = parts.iter_mut().find(|part| part.typ == file::TZDIR).unwrap();
    zones.bytes = zones.bytes.repeat(count);
    let names: Vec<Vec<u8>> = (0..count).rev().map(|n| format!("Zone/{n:04}").into()).collect();
    parts.push(Part { typ: file::NAMES, bytes: file::names(&[], &names), gap: 0 });
    Draft::new(count as u32, parts).lay()
}

fn one_ring(chunks: Chunks) -> Vec<Part> {
    let mut shape = Shape::default();
    let group = shape.add_group(chunks);
    shape.zones.push(vec![vec![vec![Op { group, turned: false }]]]);
    shape.parts()
}

/// A line that turns between two corners round the middle, in so many chunks of so many points.
fn long_chunks(points: usize, count: usize) -> Vec<u8> {
    let point = |i: usize| if i.is_multiple_of(2) { (-1000, -1000) } else { (1000, 1000) };
    let chunk = |c: usize| (c * points..(c + 1) * points).map(point).collect();
    let mut parts = one_ring(Chunks((0..count).map(chunk).collect()));
    parts.push(Part { typ: file::NAMES, bytes: file::names(&[], &[b"Z".to_vec()]), gap: 0 });
    Draft::new(1, parts).lay()
}

/// A valid file with a long table, and so many bytes more before its sum.
fn padded(random: &mut Random, bytes: usize) -> Vec<u8> {
    let mut file = tables::valid(random);
    file.resize(file.len() + bytes, 0);
    file::seal(&mut file);
    file
}

fn of_file(
    random: &mut Random,
    file: &[u8],
    turns: usize,
    lent: &mut Lent,
    each: &mut impl FnMut(usize, &Call),
) {
    let Exports { open, lookup, full_check, full_check_rule, crc32, utf8, .. } = PORT;
    let (f, length) = (file.as_ptr() as u64, file.len() as u64);
    let mut call = |export: Export, at: *const (), words: &[u64], floats| {
        let mut all = [0; WORDS];
        all[..words.len()].copy_from_slice(words);
        let takes_more = words.len() > 8;
        each(export as usize, &Call { export: at, words: all, floats, takes_more });
    };
    let none = [0.0; 2];
    lent.record.fill(0);
    let record = lent.record.as_mut_ptr() as u64;
    call(Export::FullCheck, full_check as *const (), &[f, length], none);
    call(Export::FullCheckRule, full_check_rule as *const (), &[f, length], none);
    for zone in [0, 1, random.below(500) as u64] {
        let (text, room) = (lent.text.as_mut_ptr() as u64, lent.text.len() as u64);
        let Exports { map, map_length, .. } = PORT;
        call(Export::MapLength, map_length as *const (), &[f, length, zone], none);
        call(Export::Map, map as *const (), &[f, length, zone, text, 0], none);
        call(Export::Map, map as *const (), &[f, length, zone, text, room], none);
    }
    call(Export::Crc32, crc32 as *const (), &[f, length], none);
    call(Export::Utf8, utf8 as *const (), &[f, length], none);
    call(Export::Open, open as *const (), &[f, length, record, 0], none);
    call(Export::Open, open as *const (), &[f, length, record, SIZE as u64], none);
    build([record, SIZE as u64, f, length], lent, &mut call);
    for turn in 0..turns {
        let at = position(random, turn);
        if turn < 4 {
            call(Export::Lookup, lookup as *const (), &[f, length], at);
            call(Export::LookupPlace, PORT.lookup_place as *const (), &[f, length], at);
        }
        questions(random, [record, SIZE as u64, f, length], at, lent, &mut call);
        by_stripes(random, [record, SIZE as u64, f, length], at, lent, &mut call);
        let [x, y] = at.map(|degrees| (degrees * 1e5) as i32 as u64);
        let asked = [record, SIZE as u64, f, length, 3, x, y, lent.text.as_mut_ptr() as u64, 16];
        call(Export::JournalAsk, PORT.journal_ask as *const (), &asked, none);
        if turn < 2 {
            entries(random, [x, y], lent, &mut call);
        }
    }
}

/// The entry that was asked for is read; one is written and read, of zones or a reason, now and then of neither form.
fn entries(
    random: &mut Random,
    [x, y]: [u64; 2],
    lent: &mut Lent,
    call: &mut impl FnMut(Export, *const (), &[u64], [f64; 2]),
) {
    let Exports { journal_write, journal_read, .. } = PORT;
    let none = [0.0; 2];
    let (out, room) = (lent.text.as_mut_ptr() as u64, random.pick(&[16, 16, 16, 15]));
    let (points, zones) = (lent.points.as_mut_ptr() as u64, lent.zones.as_mut_ptr() as u64);
    let read = [3, out, 16, points, 2, zones, 3];
    call(Export::JournalRead, journal_read as *const (), &read, none);
    let count = random.below(5) as u64;
    (0..5).for_each(|i| lent.zones[i] = random.below(100) as u32);
    let reason = if count == 0 { random.below(50) as u64 } else { 0 };
    let written = [3, x, y, zones, count, reason, out, room];
    call(Export::JournalWrite, journal_write as *const (), &written, none);
    call(Export::JournalRead, journal_read as *const (), &read, none);
}

/// The stripes' numbers. Where they are refused, those of a file before stay.
fn build(
    [r, size, f, length]: [u64; 4],
    lent: &mut Lent,
    call: &mut impl FnMut(Export, *const (), &[u64], [f64; 2]),
) {
    let Exports { stripes_need, stripes, .. } = PORT;
    let (to, room) = (lent.numbers.as_mut_ptr() as u64, lent.numbers.len() as u64);
    let none = [0.0; 2];
    call(Export::StripesNeed, stripes_need as *const (), &[r, size, f, length], none);
    call(Export::Stripes, stripes as *const (), &[r, size, f, length, to, 0], none);
    call(Export::Stripes, stripes as *const (), &[r, size, f, length, to, room], none);
}

/// The walks' questions with the numbers that were built last, whole or cut.
fn by_stripes(
    random: &mut Random,
    [r, size, f, length]: [u64; 4],
    at: [f64; 2],
    lent: &mut Lent,
    call: &mut impl FnMut(Export, *const (), &[u64], [f64; 2]),
) {
    let Exports { contains_striped, ask_striped, ask_all_striped, .. } = PORT;
    let Exports { contains_striped_place, ask_striped_place, ask_all_striped_place, .. } = PORT;
    let whole = lent.numbers.len() as u64;
    let (n, count) = (lent.numbers.as_ptr() as u64, random.pick(&[whole, whole, whole, 5, 30, 0]));
    let with = |more: &[u64]| [&[r, size, n, count, f, length][..], more].concat();
    let zone = random.pick(&[0, 0, 1, 2, 100, u32::MAX]).into();
    let [x, y] = at.map(|degrees| (degrees * 1e5) as i32 as u64);
    for (export, at) in [
        (Export::ContainsStriped, contains_striped as *const ()),
        (Export::ContainsStripedPlace, contains_striped_place as *const ()),
    ] {
        call(export, at, &with(&[zone, x, y]), [0.0; 2]);
    }
    call(Export::AskStriped, ask_striped as *const (), &with(&[]), at);
    call(Export::AskStripedPlace, ask_striped_place as *const (), &with(&[]), at);
    let zones = lent.zones.as_mut_ptr() as u64;
    let many = random.pick(&[0, 1, 16, 65_535]);
    let place = ask_all_striped_place as *const ();
    for many in [many, 65_535] {
        call(Export::AskAllStriped, ask_all_striped as *const (), &with(&[zones, many]), at);
        call(Export::AskAllStripedPlace, place, &with(&[zones, many]), at);
    }
}

/// The middle, where most small files have their zones, then near it, on the earth, and anywhere.
fn position(random: &mut Random, turn: usize) -> [f64; 2] {
    match turn % 4 {
        0 => [0.0, 0.0],
        1 => [random.part() * 1e-3, random.part() * 1e-3],
        2 => [random.part() * 360.0 - 180.0, random.part() * 180.0 - 90.0],
        _ => [f64::from_bits(random.bits()), random.part() * 90.0],
    }
}

/// Every question over a record.
fn questions(
    random: &mut Random,
    lent_in: [u64; 4],
    at: [f64; 2],
    lent: &mut Lent,
    call: &mut impl FnMut(Export, *const (), &[u64], [f64; 2]),
) {
    let Exports { zone_count, name_start, name_end, name, choice, listed, .. } = PORT;
    let Exports { candidate, contains, decode, ask, ask_all, .. } = PORT;
    let Exports { contains_place, decode_place, ask_place, ask_all_place, .. } = PORT;
    let with = |more: &[u64]| [&lent_in[..], more].concat();
    let none = [0.0; 2];
    let number = random.pick(&[0, 0, 1, 2, 100, u32::MAX]).into();
    let many = random.pick(&[0, 1, 16, 65_535]);
    call(Export::ZoneCount, zone_count as *const (), &lent_in[..2], none);
    call(Export::NameStart, name_start as *const (), &with(&[number]), none);
    call(Export::NameEnd, name_end as *const (), &with(&[number]), none);
    let ends = lent.ends.as_mut_ptr() as u64;
    call(Export::Name, name as *const (), &with(&[number, ends, 2]), none);
    call(Export::Choice, choice as *const (), &with(&[]), at);
    call(Export::Listed, listed as *const (), &with(&[]), at);
    call(Export::Candidate, candidate as *const (), &with(&[number]), none);
    let [x, y] = at.map(|degrees| (degrees * 1e5) as i32 as u64);
    call(Export::Contains, contains as *const (), &with(&[number, x, y]), none);
    call(Export::ContainsPlace, contains_place as *const (), &with(&[number, x, y]), none);
    let points = lent.points.as_mut_ptr() as u64;
    for asked in [[number, points, 2 * many], [0, points, 2 * 65_535]] {
        call(Export::Decode, decode as *const (), &with(&asked), none);
        call(Export::DecodePlace, decode_place as *const (), &with(&asked), none);
    }
    call(Export::Ask, ask as *const (), &with(&[]), at);
    call(Export::AskPlace, ask_place as *const (), &with(&[]), at);
    let zones = lent.zones.as_mut_ptr() as u64;
    for many in [many, 65_535] {
        call(Export::AskAll, ask_all as *const (), &with(&[zones, many]), at);
        call(Export::AskAllPlace, ask_all_place as *const (), &with(&[zones, many]), at);
    }
}

/// The parts that take no file: any numbers and floats, and any bytes.
fn parts(random: &mut Random, each: &mut impl FnMut(usize, &Call)) {
    let Exports { number, number_length, box_contains, box_relevant, ray, parity, next_up, .. } =
        PORT;
    let length = random.below(8);
    let bytes = random.bytes(length);
    let mut call = |export: Export, at: *const (), words: [u64; WORDS], floats| {
        each(export as usize, &Call { export: at, words, floats, takes_more: false });
    };
    let mut words = [0; WORDS];
    words[..3].copy_from_slice(&[bytes.as_ptr() as u64, length as u64, random.below(9) as u64]);
    call(Export::Number, number as *const (), words, [0.0; 2]);
    call(Export::NumberLength, number_length as *const (), words, [0.0; 2]);
    let near = random.below(2) == 0;
    let mut corner = || if near { random.from_to(-2, 2) } else { random.bits() as i32 };
    let words = [(); WORDS].map(|()| corner() as u32 as u64);
    let floats = if near { [0.0, 1.0] } else { [(); 2].map(|()| f64::from_bits(random.bits())) };
    call(Export::BoxContains, box_contains as *const (), words, floats);
    call(Export::BoxRelevant, box_relevant as *const (), words, floats);
    call(Export::Ray, ray as *const (), words, floats);
    call(Export::Parity, parity as *const (), words, floats);
    call(Export::NextUp, next_up as *const (), words, floats);
}
