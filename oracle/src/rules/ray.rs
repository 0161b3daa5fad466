//! The ray test in floats, one rounding for each operation, and the two ends' parity.

use super::records::Place;

#[derive(Debug, Clone, Copy, PartialEq, Eq)]
pub enum Seen {
    On,
    Off(bool),
}

const NEITHER: Seen = Seen::Off(false);
const COUNTS: Seen = Seen::Off(true);

pub fn ray(a: Place, b: Place, x: f64, y: f64) -> Seen {
    let (ax, ay, bx, by) = (a.0 as f64, a.1 as f64, b.0 as f64, b.1 as f64);
    let (left, right, low, high) = (ax.min(bx), ax.max(bx), ay.min(by), ay.max(by));
    if y < low || y > high {
        return NEITHER;
    }
    if low == high && left == right {
        return if x == ax { Seen::On } else { NEITHER };
    }
    if low == high && x >= left && x <= right {
        return Seen::On;
    }
    if left == right && x == left {
        return Seen::On;
    }
    if (x - ax) / (bx - ax) == (y - ay) / (by - ay) {
        return Seen::On;
    }
    let mut y = y;
    while y == ay || y == by {
        y = up(y);
    }
    if y < low || y > high || x >= right {
        return NEITHER;
    }
    if x <= left {
        return COUNTS;
    }
    let ((fx, fy), (tx, ty)) = if ay < by { ((ax, ay), (bx, by)) } else { ((bx, by), (ax, ay)) };
    Seen::Off((y - fy) / (x - fx) >= (ty - fy) / (tx - fx))
}

/// The next float upward, of a finite one, from the bits.
fn up(x: f64) -> f64 {
    let bits = x.to_bits();
    if x == 0.0 {
        f64::from_bits(1)
    } else if x > 0.0 {
        f64::from_bits(bits + 1)
    } else {
        f64::from_bits(bits - 1)
    }
}

/// Whether exactly one end is above.
pub fn parity(a: Place, b: Place, y: f64) -> bool {
    (a.1 as f64 > y) != (b.1 as f64 > y)
}
