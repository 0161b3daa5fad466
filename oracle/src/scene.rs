//! Two ends (or corners) of whole numbers and a point of floats: what every question of geometry takes.

use crate::random::Random;

#[derive(Clone, Copy)]
pub struct Scene {
    pub ax: i32,
    pub ay: i32,
    pub bx: i32,
    pub by: i32,
    pub x: f64,
    pub y: f64,
}

impl std::fmt::Debug for Scene {
    fn fmt(&self, f: &mut std::fmt::Formatter<'_>) -> std::fmt::Result {
        let Scene { ax, ay, bx, by, x, y } = self;
        let (xs, ys) = (x.to_bits(), y.to_bits());
        write!(f, "({ax}, {ay}) ({bx}, {by}) point ({x:?}, {y:?}), its bits {xs:016x} {ys:016x}")
    }
}

/// A float's bits; all NaNs are one.
pub fn bits(x: f64) -> u64 {
    if x.is_nan() { f64::NAN.to_bits() } else { x.to_bits() }
}

/// The bounds of what a file may store.
const EAST: i32 = 18_000_000;
const NORTH: i32 = 9_000_000;

/// Ends that tell: the bounds of i32 and of what a file may store, and around zero.
pub const ENDS: [i32; 9] = [i32::MIN, i32::MIN + 1, -EAST, -1, 0, 1, NORTH, i32::MAX - 1, i32::MAX];

/// Floats that tell.
pub fn floats() -> Vec<f64> {
    let mut out = vec![f64::NAN, -f64::NAN];
    let positive = [
        0.0,
        f64::from_bits(1),
        f64::MIN_POSITIVE.next_down(),
        f64::MIN_POSITIVE,
        0.5,
        1f64.next_down(),
        1.0,
        1f64.next_up(),
        9_000_000.0,
        18_000_000.0,
        2_147_483_646.0,
        2_147_483_647.0,
        2_147_483_648.0,
        9_007_199_254_740_992.0,
        1e300,
        f64::MAX,
        f64::INFINITY,
    ];
    for x in positive {
        out.push(x);
        out.push(-x);
    }
    out
}

/// Each makes one kind of scene.
pub const KINDS: [(&str, fn(&mut Random) -> Scene); 10] = [
    ("whole points", whole),
    ("whole points on it or a step away", whole_beside),
    ("any points", broken),
    ("near the segment", near),
    ("beside a small one", small),
    ("level with an end", level_with_end),
    ("level and upright", straight),
    ("full range", full),
    ("full range, near", full_near),
    ("any floats", any_floats),
];

fn in_domain(r: &mut Random) -> (i32, i32) {
    (r.from_to(-EAST, EAST), r.from_to(-NORTH, NORTH))
}

/// Ends in the domain: far apart, or some steps from each other as on a border.
fn ends(r: &mut Random) -> (i32, i32, i32, i32) {
    let (ax, ay) = in_domain(r);
    if r.below(3) == 0 {
        let (bx, by) = in_domain(r);
        return (ax, ay, bx, by);
    }
    let step = r.pick(&[2, 20, 500, 20_000]);
    let bx = (ax + r.from_to(-step, step)).clamp(-EAST, EAST);
    let by = (ay + r.from_to(-step, step)).clamp(-NORTH, NORTH);
    (ax, ay, bx, by)
}

fn whole(r: &mut Random) -> Scene {
    let (ax, ay, bx, by) = ends(r);
    let x = f64::from(r.from_to(ax.min(bx) - 2, ax.max(bx) + 2));
    let y = f64::from(r.from_to(ay.min(by) - 2, ay.max(by) + 2));
    Scene { ax, ay, bx, by, x, y }
}

/// Both ends are whole steps (dx, dy) away from the point, which then may move by one.
fn whole_beside(r: &mut Random) -> Scene {
    let (px, py) = in_domain(r);
    let reach = r.pick(&[3, 100, 3000]);
    let [dx, dy] = [(); 2].map(|()| i64::from(r.from_to(-reach, reach)));
    let end = |r: &mut Random| {
        let steps = i64::from(r.from_to(-3000, 3000));
        let x = (i64::from(px) + steps * dx).clamp(-i64::from(EAST), i64::from(EAST));
        let y = (i64::from(py) + steps * dy).clamp(-i64::from(NORTH), i64::from(NORTH));
        (x as i32, y as i32)
    };
    let ((ax, ay), (bx, by)) = (end(r), end(r));
    let [mx, my] = [(); 2].map(|()| r.pick(&[0, 0, 0, 1, -1]));
    Scene { ax, ay, bx, by, x: f64::from(px + mx), y: f64::from(py + my) }
}

/// As a lookup makes them: degrees times 100,000.
fn broken(r: &mut Random) -> Scene {
    let s = whole(r);
    let x = (s.x / 100_000.0 + (r.part() - 0.5) * 1e-5) * 100_000.0;
    let y = (s.y / 100_000.0 + (r.part() - 0.5) * 1e-5) * 100_000.0;
    Scene { x, y, ..s }
}

fn nudged(r: &mut Random, x: f64) -> f64 {
    match r.below(6) {
        0 => x.next_up(),
        1 => x.next_down(),
        2 => x + 0.5f64.powi(r.from_to(1, 62)),
        3 => x - 0.5f64.powi(r.from_to(1, 62)),
        4 => x.round(),
        _ => x,
    }
}

/// The point at a part of the way from a to b, then moved a little.
fn beside(r: &mut Random, ax: i32, ay: i32, bx: i32, by: i32) -> Scene {
    let (fx, fy) = (f64::from(ax), f64::from(ay));
    let part = match r.below(3) {
        0 => f64::from(r.from_to(0, 8)) / 8.0,
        _ => r.part(),
    };
    let x = fx + part * (f64::from(bx) - fx);
    let y = fy + part * (f64::from(by) - fy);
    Scene { ax, ay, bx, by, x: nudged(r, x), y: nudged(r, y) }
}

fn near(r: &mut Random) -> Scene {
    let (ax, ay, bx, by) = ends(r);
    beside(r, ax, ay, bx, by)
}

fn small(r: &mut Random) -> Scene {
    let e = [(); 4].map(|()| r.from_to(-12, 12));
    let s = beside(r, e[0], e[1], e[2], e[3]);
    if r.below(2) == 0 {
        return s;
    }
    let eighths = |r: &mut Random| f64::from(r.from_to(-104, 104)) / 8.0;
    Scene { x: eighths(r), y: eighths(r), ..s }
}

fn level_with_end(r: &mut Random) -> Scene {
    let s = near(r);
    let y = f64::from(r.pick(&[s.ay, s.by]));
    Scene { y: r.pick(&[y, y, y.next_up(), y.next_down()]), ..s }
}

fn straight(r: &mut Random) -> Scene {
    let (ax, ay, bx, by) = ends(r);
    match r.below(3) {
        0 => beside(r, ax, ay, bx, ay),
        1 => beside(r, ax, ay, ax, by),
        _ => beside(r, ax, ay, ax, ay),
    }
}

fn full_ends(r: &mut Random) -> [i32; 4] {
    [(); 4].map(|()| if r.below(4) == 0 { r.pick(&ENDS) } else { r.bits() as i32 })
}

fn full(r: &mut Random) -> Scene {
    let [ax, ay, bx, by] = full_ends(r);
    Scene { ax, ay, bx, by, x: f64::from(r.bits() as i32), y: f64::from(r.bits() as i32) }
}

fn full_near(r: &mut Random) -> Scene {
    let [ax, ay, bx, by] = full_ends(r);
    beside(r, ax, ay, bx, by)
}

fn any_floats(r: &mut Random) -> Scene {
    let s = match r.below(2) {
        0 => small(r),
        _ => full(r),
    };
    let any = |r: &mut Random, x: f64| match r.below(3) {
        0 => f64::from_bits(r.bits()),
        1 => r.pick(&floats()),
        _ => x,
    };
    Scene { x: any(r, s.x), y: any(r, s.y), ..s }
}

/// What may be tried in the place of a scene, when a small one is looked for.
pub fn simpler(s: &Scene) -> Vec<Scene> {
    let whole = |n: i32| [0, n / 2, n - n.signum()].into_iter().filter(move |&m| m != n);
    let float = |x: f64| {
        let less = [0.0, x.trunc(), x / 2.0, x - x.signum()];
        less.into_iter().filter(move |y| y.abs() < x.abs() && (*y == 0.0 || y.abs() >= 0.5))
    };
    let mut out = Vec::new();
    if let (true, Some(bx)) = (s.ax != 0, s.bx.checked_sub(s.ax)) {
        out.push(Scene { ax: 0, bx, x: s.x - f64::from(s.ax), ..*s });
    }
    if let (true, Some(by)) = (s.ay != 0, s.by.checked_sub(s.ay)) {
        out.push(Scene { ay: 0, by, y: s.y - f64::from(s.ay), ..*s });
    }
    out.extend(whole(s.ax).map(|ax| Scene { ax, ..*s }));
    out.extend(whole(s.ay).map(|ay| Scene { ay, ..*s }));
    out.extend(whole(s.bx).map(|bx| Scene { bx, ..*s }));
    out.extend(whole(s.by).map(|by| Scene { by, ..*s }));
    out.extend(float(s.x).map(|x| Scene { x, ..*s }));
    out.extend(float(s.y).map(|y| Scene { y, ..*s }));
    out
}
