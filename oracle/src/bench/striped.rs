//! Questions by stripes, and building them, beside the original, which has stripes of its own and builds them as it opens.

use super::asking::{Places, Positions, original_ask, original_ask_all, original_contains};
use super::{ROUNDS, is_wanted, row, time};
use crate::original;
use crate::port::opening::{SIZE, open_into};
use crate::port::striped::{Asked, PORT};
use std::time::Duration;

pub fn run(file: &[u8], anywhere: &Positions, borders: &Positions, places: &Places) {
    let record = open_into(file, SIZE).expect("a file that opens");
    let need = PORT.need(&record, file).expect("a file that builds") as usize;
    let numbers = PORT.numbers(&record, file, need).expect("room for all");
    let mut both = Both {
        asked: Asked { record: &record, file, numbers: &numbers },
        original: original::opening::open(file).ok().expect("a file that opens"),
    };
    assert!(both.original.stripes() == numbers, "the original's numbers are others");
    both.lookup("random positions", anywhere);
    both.lookup("near borders", borders);
    both.lookup_into("random positions", anywhere);
    both.lookup_into("near borders", borders);
    both.contains("near borders", places);
    both.build(need);
}

struct Both<'a> {
    asked: Asked<'a>,
    original: original::opening::Opened<'a>,
}

impl Both<'_> {
    fn lookup(&self, name: &str, at: &Positions) {
        let (r, size, n, count, f, length) = self.asked.parts();
        let mut port = || {
            at.iter().fold(0u64, |sum, &(lng, lat)| {
                let zone = unsafe { (PORT.ask)(r, size, n, count, f, length, lng, lat) };
                sum.wrapping_add(zone as u64)
            })
        };
        let mut original = || {
            at.iter().fold(0u64, |sum, &(lng, lat)| {
                sum.wrapping_add(original_ask(&self.original, lng, lat) as u64)
            })
        };
        row(&format!("striped lookup, {name}, each"), at.len(), &mut port, &mut original);
    }

    fn lookup_into(&self, name: &str, at: &Positions) {
        let (r, size, n, count, f, length) = self.asked.parts();
        let mut zones = [0u32; 16];
        let mut port = || {
            at.iter().fold(0u64, |sum, &(lng, lat)| {
                let (to, room) = (zones.as_mut_ptr(), zones.len());
                let found =
                    unsafe { (PORT.ask_all)(r, size, n, count, f, length, lng, lat, to, room) };
                let found = &zones[..found as usize];
                found.iter().fold(sum, |sum, &zone| sum.wrapping_mul(31) + u64::from(zone))
            })
        };
        let mut list = Vec::with_capacity(16);
        let mut original = || {
            at.iter().fold(0u64, |sum, &(lng, lat)| {
                original_ask_all(&self.original, lng, lat, &mut list);
                list.iter().fold(sum, |sum, &zone| sum.wrapping_mul(31) + u64::from(zone))
            })
        };
        row(&format!("striped lookup_into, {name}, each"), at.len(), &mut port, &mut original);
    }

    fn contains(&self, name: &str, at: &Places) {
        let (r, size, n, count, f, length) = self.asked.parts();
        let mut port = || {
            at.iter().fold(0u64, |sum, &(zone, x, y)| {
                let is = unsafe { (PORT.contains)(r, size, n, count, f, length, zone, x, y) };
                sum.wrapping_mul(31) + is as u64
            })
        };
        let mut original = || {
            at.iter().fold(0u64, |sum, &(zone, x, y)| {
                sum.wrapping_mul(31) + original_contains(&self.original, zone, x, y) as u64
            })
        };
        row(&format!("striped containment, {name}, each"), at.len(), &mut port, &mut original);
    }

    /// The original looks at the sums of the groups' points on the way, which the port does as it opens.
    fn build(&mut self, need: usize) {
        let (r, size, _, _, f, length) = self.asked.parts();
        let mut numbers = vec![0u32; need];
        let mut port = || {
            let (to, room) = (numbers.as_mut_ptr(), numbers.len());
            unsafe { (PORT.build)(r, size, f, length, to, room) as u64 }
        };
        let mut original = || {
            self.original.build_stripes().expect("stripes that were built before");
            need as u64
        };
        row("building stripes, a number", need, &mut port, &mut original);
        let name = "building stripes, a megabyte of file";
        if !is_wanted(name) || std::env::var_os("COUNTS").is_some() {
            return;
        }
        let best = |f: &mut dyn FnMut() -> u64| (0..ROUNDS).map(|_| time(f)).min().unwrap();
        let megabytes = length as f64 / 1e6;
        let each = |d: Duration| d.as_secs_f64() * 1e3 / megabytes;
        let (p, o) = (each(best(&mut port)), each(best(&mut original)));
        println!("{name:<46}{p:>9.2} ms{o:>9.2} ms{:>8.2}", o / p);
        println!(
            "stripes: {need} numbers for {length} bytes, {:.0} a megabyte",
            need as f64 / megabytes
        );
    }
}
