//! Random files.

use super::*;

/// A valid file whose rings are made of short groups: of one point too, with equal neighbours, turned round and shared, meeting or not, closed or not.
/// A ring may also be a line or a point.
pub fn some(random: &mut Random) -> Draft {
    of_groups(random, false)
}

/// The same, but three times in four each ring has room.
pub fn mostly_with_room(random: &mut Random) -> Draft {
    let room = random.below(4) > 0;
    of_groups(random, room)
}

fn of_groups(random: &mut Random, room: bool) -> Draft {
    let mut shape = Shape::default();
    let reach = random.pick(&[1, 2, 3, 1_000, 100_000, 20_000_000, 0]);
    for _ in 0..1 + random.below(3) {
        let mut zone = Vec::new();
        for _ in 0..random.pick(&[1, 1, 2]) {
            let rings = random.pick(&[1, 1, 2, 3]);
            let mut ring = |_| shape.made(room, |shape| some_ring(random, shape, reach));
            zone.push((0..rings).map(&mut ring).collect());
        }
        shape.zones.push(zone);
    }
    let cell = shape.cell();
    around(random, &shape, false, |random, zones| Grid::over(random, zones, cell))
}

/// Within the reach of 0, 0; where that is 0, of any number of digits.
fn some_point(random: &mut Random, reach: i32) -> Point {
    let mut number = |end: i32| {
        let reach = if reach == 0 { 10i32.pow(random.below(9) as u32) } else { reach };
        random.from_to(-reach, reach).clamp(-end, end)
    };
    (number(EAST), number(NORTH))
}

fn some_ring(random: &mut Random, shape: &mut Shape, reach: i32) -> Vec<Op> {
    let start = some_point(random, reach);
    let (mut last, mut ring) = (start, Vec::new());
    let legs = 1 + random.below(4);
    for i in 0..legs {
        let meets = i == 0 || random.below(3) > 0;
        let mut run = vec![if meets { last } else { some_point(random, reach) }];
        for _ in 0..random.below(5) {
            let again = random.below(8) == 0;
            run.push(if again { run[run.len() - 1] } else { some_point(random, reach) });
        }
        if i + 1 == legs && random.below(2) == 0 {
            run.push(start);
        }
        last = run[run.len() - 1];
        let turned = random.below(2) == 0;
        if turned {
            run.reverse();
        }
        let size = 1 + random.below(run.len());
        let group = shape.add_group(Chunks(run.chunks(size).map(<[Point]>::to_vec).collect()));
        ring.push(Op { group, turned });
    }
    if random.below(4) == 0 {
        let group = random.below(ring[0].group + 1);
        let place = random.below(ring.len() + 1);
        ring.insert(place, Op { group, turned: random.below(2) == 0 });
    }
    ring
}
