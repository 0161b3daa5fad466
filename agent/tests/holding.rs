//! An index holds its bytes in any form: its own, lent, shared; as a field that is replaced; and bytes that change.

mod common;

use std::cell::Cell;
use std::rc::Rc;
use std::sync::Arc;

use common::broken::Shore;
use common::{
    GROUPDIR, Squares, TZDIR, changed, chunk_of, coast, in_chunks, sample, start_of, words,
};
use tzb::{Index, Refusal, Walk, full_check};

/// What a service keeps: the index of the day, and how often it was replaced.
struct Places {
    index: Index,
    loads: u32,
}

impl Places {
    /// Puts a new file in the place of the old one, unless it is refused.
    fn reload(&mut self, file: Vec<u8>) -> Result<(), Refusal> {
        self.index = Index::open_checked(file)?;
        self.loads += 1;
        Ok(())
    }

    fn name(&self, lng: f64, lat: f64) -> Option<&str> {
        self.index.name_at(lng, lat).unwrap()
    }
}

#[test]
fn a_field_that_is_replaced() {
    let squares = Squares::new(&["A"]);
    let mut places = Places { index: Index::open(squares.bytes.clone()).unwrap(), loads: 0 };
    assert_eq!((places.name(0.5, 0.5), places.name(8.68, 50.11)), (Some("A"), None));
    assert_eq!(places.index.walk(), Walk::Striped { numbers: 5 });
    assert_eq!(places.reload(sample()), Ok(()));
    assert_eq!(places.name(8.68, 50.11), Some("Germany"));
    let stripes = places.index.walk();
    assert!(matches!(stripes, Walk::Striped { numbers } if numbers > 5 * 5031), "{stripes}");
    let unsound = squares.with(TZDIR, 16, &words(&[10]));
    assert_eq!(places.reload(unsound).unwrap_err().rule(), Some(6));
    assert_eq!(places.reload(vec![0; 10]).unwrap_err().number(), 1);
    assert_eq!((places.name(8.68, 50.11), places.loads), (Some("Germany"), 1));
    assert_eq!(places.index.walk(), stripes);
}

#[test]
fn every_form_of_bytes() {
    fn name<B: AsRef<[u8]>>(file: B) -> Option<String> {
        let index = Index::open_checked(file).unwrap();
        index.name_at(0.5, 0.5).unwrap().map(str::to_string)
    }
    let bytes = Squares::new(&["A"]).bytes;
    let a = Some("A".to_string());
    assert_eq!(name(bytes.as_slice()), a);
    assert_eq!(name(&bytes), a);
    assert_eq!(name(Arc::<[u8]>::from(bytes.as_slice())), a);
    assert_eq!(name(bytes.clone().into_boxed_slice()), a);
    assert_eq!(name(std::borrow::Cow::from(&bytes)), a);
    assert_eq!(Index::open(bytes.clone()).unwrap().into_file(), bytes);
}

#[test]
fn open_checked_refuses_what_the_full_check_does_not_accept() {
    let squares = Squares::new(&["A"]);
    for (at, new) in [(16, 10), (4, 0), (0, 7)] {
        let file = squares.with(TZDIR, at, &words(&[new]));
        let refusal = full_check(&file).unwrap_err();
        assert_eq!(Index::open_checked(&file).unwrap_err(), refusal);
        assert_eq!(Index::open(&file).is_ok(), refusal.number() == 47);
    }
    assert_eq!(Index::open_checked(&squares.bytes).unwrap().zone_count(), 1);
}

/// Gives other bytes from a turn on.
struct Changing {
    turn: Cell<u32>,
    from: u32,
    before: Vec<u8>,
    after: Vec<u8>,
}

impl AsRef<[u8]> for Changing {
    fn as_ref(&self) -> &[u8] {
        self.turn.set(self.turn.get() + 1);
        if self.turn.get() > self.from { &self.after } else { &self.before }
    }
}

/// A record and stripes are asked with bytes that they were not made of: every question is answered or refused, and nothing
/// panics.
#[test]
fn bytes_that_change_are_answered_for_what_they_are() {
    let squares = Squares::new(&["A", "B"]).bytes;
    let other = in_chunks("B", &coast(30));
    for before in [squares, in_chunks("A", &coast(40))] {
        let half = before[..before.len() / 2].to_vec();
        let wild = vec![0xff; before.len()];
        for after in [vec![], half, wild, other.clone(), sample()] {
            [1, 2, 3].iter().for_each(|&from| ask_while_bytes_change(&before, &after, from));
        }
    }
}

fn ask_while_bytes_change(before: &[u8], after: &[u8], from: u32) {
    let zones = Index::open(before).unwrap().zone_count();
    for open in [Index::open, Index::open_plain, Index::open_checked] {
        let (before, after, turn) = (before.to_vec(), after.to_vec(), Cell::new(0));
        let index = open(Changing { turn, from, before, after }).unwrap();
        assert_eq!(index.zone_count(), zones);
        for zone in 0..3 {
            let told = [
                index.name(zone).map(|_| ()),
                index.zone(0.5, 0.5).map(|_| ()),
                index.zones(0.5, 0.5).map(|_| ()),
                index.contains(zone, 50_000, 50_000).map(|_| ()),
                index.decode(zone).map(|_| ()),
            ];
            let numbers = told.iter().filter_map(|one| one.err()).map(|refusal| refusal.number());
            assert!(numbers.into_iter().all(|number| (1..=47).contains(&number)), "{told:?}");
        }
        assert!(index.data_version().len() <= 16);
        assert!(index.sections().count() <= index.file().len() / 16);
        assert!(index.grid().is_none() || index.file().len() > 1_000_000);
    }
}

/// The group has a chunk less after opening, and every stripe of the first bytes names it. So it shows who asks by stripes.
#[test]
fn an_index_asks_with_its_stripes() {
    let before = in_chunks("A", &coast(40));
    let after = changed(&before, start_of(&before, GROUPDIR) + 8, &words(&[39]));
    let told = [Index::open, Index::open_checked, Index::open_plain].map(|open| {
        let (before, after, turn) = (before.clone(), after.clone(), Cell::new(0));
        let index = open(Changing { turn, from: 1, before, after }).unwrap();
        let zone = index.zone(0.5, 0.2).map(|_| ());
        let zones = index.zones(0.5, 0.2).map(|_| ());
        let inside = index.contains(0, 50_000, 20_000).map(|_| ());
        [zone, zones, inside].map(|one| one.map_err(|refusal| refusal.number()))
    });
    assert_eq!(told, [[Err(34); 3], [Err(34); 3], [Ok(()); 3]]);
}

/// Gives broken bytes once, when it is told to.
struct BrokenOnce {
    now: Rc<Cell<bool>>,
    sound: Vec<u8>,
    broken: Vec<u8>,
}

impl AsRef<[u8]> for BrokenOnce {
    fn as_ref(&self) -> &[u8] {
        if self.now.replace(false) { &self.broken } else { &self.sound }
    }
}

/// The place of a refusal is asked for with the bytes of the question.
#[test]
fn a_place_is_of_the_bytes_that_were_asked() {
    let shore = Shore::new((100_000, 200_000));
    let damages = shore.damages(3);
    let damage = damages.iter().find(|damage| damage.refusal == 39).unwrap();
    let (sound, broken) = (shore.file(&[]), shore.file(&[(3, &damage.bytes)]));
    let place = (chunk_of(&broken, 3).start + damage.place) as u64;
    let (x, y) = shore.beside(3);
    let (lng, lat) = (f64::from(x) / 100_000.0, f64::from(y) / 100_000.0);
    for open in [Index::open, Index::open_plain] {
        let now = Rc::new(Cell::new(false));
        let (sound, broken) = (sound.clone(), broken.clone());
        let index = open(BrokenOnce { now: now.clone(), sound, broken }).unwrap();
        let questions: [&dyn Fn() -> Option<Refusal>; 4] = [
            &|| index.zone(lng, lat).err(),
            &|| index.zones(lng, lat).err(),
            &|| index.contains(0, x, y).err(),
            &|| index.decode(3).err(),
        ];
        for ask in questions {
            assert_eq!(ask(), None);
            now.set(true);
            let refusal = ask().unwrap();
            assert_eq!((refusal.number(), refusal.place()), (39, Some(place)));
            assert_eq!(ask(), None);
        }
    }
}
