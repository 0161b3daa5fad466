//! The ray test, the parity of two ends, the next float and the box against the original's.

use super::{Tally, differs};
use crate::random::Random;
use crate::scene::{self, ENDS, KINDS, Scene};
use crate::{original, port};

struct Question {
    name: &'static str,
    port: fn(&Scene) -> u64,
    original: fn(&Scene) -> u64,
}

const QUESTIONS: [Question; 5] = [
    Question { name: "ray test", port: port::ray, original: original::ray },
    Question { name: "parity of ends", port: port::parity, original: original::parity },
    Question { name: "box contains", port: port::contains, original: original::contains },
    Question { name: "box relevant", port: port::relevant, original: original::relevant },
    Question { name: "next float up", port: port::next_up, original: original::next_up },
];

/// Puts all five questions.
fn ask(s: &Scene) {
    for q in &QUESTIONS {
        if (q.port)(s) != (q.original)(s) {
            let both = |s: &Scene| ((q.port)(s) as i64, (q.original)(s) as i64);
            differs(q.name, "original", *s, scene::simpler, both);
        }
    }
}

fn add(tally: &mut Tally, kind: &str, scenes: u64) {
    tally.add(&format!("geometry, five questions to each: {kind}"), scenes * 5);
}

pub fn all(tally: &mut Tally) {
    let ends: Vec<i32> = (-2..=2).collect();
    let points: Vec<f64> = (-12..=12).map(|n| f64::from(n) / 4.0).collect();
    add(tally, "small lattice, quarter steps", lattice(&ends, &points));
    add(tally, "special ends and floats", lattice(&ENDS, &scene::floats()));
}

/// Every pair of ends with every point.
fn lattice(ends: &[i32], points: &[f64]) -> u64 {
    let n = ends.len();
    for i in 0..n.pow(4) {
        let end = |k: u32| ends[i / n.pow(k) % n];
        for &x in points {
            for &y in points {
                ask(&Scene { ax: end(0), ay: end(1), bx: end(2), by: end(3), x, y });
            }
        }
    }
    (n.pow(4) * points.len().pow(2)) as u64
}

pub fn some(tally: &mut Tally, random: &mut Random) {
    for (kind, make) in KINDS {
        for _ in 0..2000 {
            ask(&make(random));
        }
        add(tally, kind, 2000);
    }
}
