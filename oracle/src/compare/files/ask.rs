//! Puts one file and its questions to all sides.

use super::Tally;
use crate::compare::panel::Panel;
use crate::compare::sides::Sides;
use crate::random::Random;
use crate::rules::Opened;
use crate::voice::Question;

/// All that is asked of a small file: the numbers that were said of opening, and how many questions more; or what differs.
pub fn everything(file: &[u8]) -> Result<([u32; 2], u64), String> {
    let sides = Sides::open(file);
    sides.agree()?;
    let numbers = sides.numbers();
    let panel = Panel::of(sides);
    let Some(opened) = panel.opened() else { return Ok((numbers, 0)) };
    let outcome = panel.ask_all(questions(&opened)).map_err(|difference| difference.to_string())?;
    Ok((numbers, outcome.questions))
}

/// Numbers of zones or places that tell, below and past a total.
fn numbers(total: u64) -> impl Iterator<Item = u32> {
    (0..total.min(24) as u32 + 2).chain([total as u32, 65_535, 65_536, u32::MAX])
}

/// Positions that tell: the ends of the world and of the grid, and around them.
fn positions(opened: &Opened) -> Vec<(f64, f64)> {
    let ends = |world: f64, first: i64, count: u64| {
        let mut out = vec![f64::NAN, f64::INFINITY, f64::NEG_INFINITY, -0.5, -0.0, 0.0];
        let marks = [-world, world, first as f64, (first + count as i64) as f64];
        for mark in marks.into_iter().chain([first as f64 + 1.0, -1.0]) {
            out.extend([mark.next_down(), mark, mark.next_up()]);
        }
        out
    };
    let (lng, lat, columns, rows) =
        opened.grid.map_or((0, 0, 1, 1), |g| (g.lng, g.lat, g.columns, g.rows));
    let (xs, ys) = (ends(180.0, lng, columns), ends(90.0, lat, rows));
    let (x, y) = (lng as f64 + 0.25, lat as f64 + 0.75);
    let mut out: Vec<(f64, f64)> = xs.iter().map(|&x| (x, y)).collect();
    out.extend(ys.iter().map(|&y| (x, y)));
    for column in 0..columns.min(5) {
        out.extend((0..rows.min(5)).map(|row| (x + column as f64, y + row as f64)));
    }
    out
}

/// Names, and places of the candidates, up to past the last; the candidates at positions that tell.
pub fn questions(opened: &Opened) -> Vec<Question> {
    let mut out: Vec<Question> = numbers(opened.zones).map(Question::Name).collect();
    out.extend(numbers(opened.candidate_total()).map(Question::Candidate));
    out.extend(positions(opened).into_iter().map(|(x, y)| Question::Candidates(x, y)));
    out
}

/// All that there is to ask of a large file that opens.
pub fn all_of(file: &[u8], tally: &mut Tally) -> Result<(), String> {
    let panel = Panel::of(Sides::open(file));
    let Some(opened) = panel.opened() else { return Ok(()) };
    let mut random = Random::new(6);
    let mut anywhere = || {
        let (lng, lat) = position(&mut random);
        Question::Candidates(lng, lat)
    };
    let places = 0..opened.candidate_total() as u32 + 2;
    let all: [(&str, Vec<Question>); 3] = [
        ("names", (0..opened.zones as u32).map(Question::Name).collect()),
        ("places of the candidates", places.map(Question::Candidate).collect()),
        ("positions", (0..200_000).map(|_| anywhere()).collect()),
    ];
    for (what, questions) in all {
        let outcome = panel.ask_all(questions).map_err(|difference| difference.to_string())?;
        tally.add(what, outcome.questions);
    }
    Ok(())
}

/// A position anywhere, or at the border of a cell, or next to one.
fn position(random: &mut Random) -> (f64, f64) {
    let lng = random.part() * 364.0 - 182.0;
    let lat = random.part() * 184.0 - 92.0;
    match random.below(4) {
        0 => (lng.round(), lat),
        1 => (lng.round().next_down(), lat.round().next_up()),
        _ => (lng, lat),
    }
}

#[cfg(test)]
mod tests {
    use super::everything;
    use crate::file::{bases, damage};

    #[test]
    fn answers_of_the_port_are_read_rightly() {
        for base in bases() {
            assert!(everything(&base).is_ok());
            damage::tables(&base, &mut |_, file| assert!(everything(&file).is_ok()));
        }
    }
}
