//! Opening files whose section table is made to cost time. Each is refused with 17 at the end of its table, or with 16 in it.

use crate::file::tables::with_table;
use crate::file::{put, shuffle};
use crate::original;
use crate::port::exports::tzb_crc32;
use crate::port::opening::refusal;
use crate::random::Random;
use std::time::{Duration, Instant};

const MANY: u32 = 40_000;
const MILLION: u32 = 1_000_000;

/// The original looks at every pair: it is asked about this many sections and fewer.
const PATIENCE: usize = 4_000;

pub fn run() {
    let mut random = Random::new(1);
    println!("{:<62}{:>8}{:>12}{:>12}", "sections", "answer", "port", "original");
    let mut shuffled = places(PATIENCE as u32, 4, 4);
    shuffle(&mut random, &mut shuffled);
    row("4,000 of four bytes, shuffled", &shuffled);
    row("40,000, all empty", &places(MANY, 0, 0));
    row("40,000 of four bytes, rising", &places(MANY, 4, 4));
    let mut falling = places(MANY, 4, 4);
    falling.reverse();
    row("40,000 of four bytes, falling", &falling);
    let mut shuffled = places(MANY, 4, 4);
    shuffle(&mut random, &mut shuffled);
    row("40,000 of four bytes, shuffled", &shuffled);
    let last = shuffled.len() - 1;
    shuffled[last] = shuffled[last - 1];
    row("40,000 of four bytes, shuffled, the last two in one place", &shuffled);
    let mut shuffled = places(MILLION, 4, 4);
    shuffle(&mut random, &mut shuffled);
    row("1,000,000 of four bytes, shuffled", &shuffled);
    let mut shuffled = places(MILLION, 4, 84);
    shuffle(&mut random, &mut shuffled);
    row("1,000,000 of four bytes, shuffled, 84 bytes apart", &shuffled);
    for count in [64, 65] {
        let length = 20_000_000 / count;
        let mut shuffled = places(count, length & !3, length & !3);
        shuffle(&mut random, &mut shuffled);
        row(&format!("{count} that fill 20 MB, shuffled"), &shuffled);
    }
}

/// So many sections behind the table: each has a length and lies so far behind the one before.
fn places(count: u32, length: u32, apart: u32) -> Vec<[u32; 3]> {
    (0..count).map(|i| [0, 64 + 16 * count + i * apart, length]).collect()
}

fn row(name: &str, entries: &[[u32; 3]]) {
    let end = entries.iter().map(|[_, off, len]| off + len).max().unwrap_or(0);
    let mut file = with_table(entries, end as usize + 4);
    let size = file.len();
    put(&mut file, 16, size as u32);
    let sum = unsafe { tzb_crc32(file.as_ptr(), size - 4) };
    put(&mut file, size - 4, sum);
    let port = time(3, || unsafe { refusal(file.as_ptr(), size) });
    print!("{name:<62}{:>8}{:>9.1} ms", port.0, port.1.as_secs_f64() * 1e3);
    if entries.len() > PATIENCE {
        return println!("{:>12}", "not asked");
    }
    let original = time(1, || original::opening::open(&file).err().unwrap_or(0));
    println!("{:>9.1} ms", original.1.as_secs_f64() * 1e3);
    assert_eq!(port.0, original.0, "{name}: the answers differ");
}

/// The answer, and the best time of so many.
fn time(turns: usize, mut f: impl FnMut() -> u32) -> (u32, Duration) {
    let mut best = Duration::MAX;
    let mut answer = 0;
    for _ in 0..turns {
        let start = Instant::now();
        answer = f();
        best = best.min(start.elapsed());
    }
    (answer, best)
}
