//! A zone as GeoJSON, to be drawn on a map.

use crate::refusal::NO_ROOM;
use crate::room::room;
use crate::{Refusal, sys};

/// Room for most maps. Every call makes the full check, and a longer map takes three calls.
const AT_FIRST: usize = 65_536;

/// A zone as GeoJSON ([RFC 7946](https://www.rfc-editor.org/rfc/rfc7946)): a `MultiPolygon`, on one line, without spaces.
///
/// Each coordinate is in degrees and has five decimals, so it is the file's own whole number, exactly. Outer rings run
/// counterclockwise and holes clockwise, each from the first point that the file stores; that point closes the ring. The
/// text is the geometry alone, without the zone's name.
///
/// The full check is made at every call: what is drawn is drawn of a file that is sound. [`Index::map`](crate::Index::map)
/// is the same of an opened index.
///
/// ```
/// # fn main() -> Result<(), Box<dyn std::error::Error>> {
/// let file = tzb::read("../sample/real-ne.tzb")?;
/// let germany = tzb::map(&file, 126)?;
/// assert!(germany.starts_with(r#"{"type":"MultiPolygon","coordinates":[[[["#));
/// # Ok(())
/// # }
/// ```
///
/// # Errors
/// The first of these: the [full check](crate::full_check)'s refusal, 1 to 34, or 47 with the lowest broken
/// [`rule`](Refusal::rule); 45 for a zone number that is too large; 48 where a ring of the zone, a hole too, has under
/// four positions, over 10,000, or no area; 46 where there is no memory for the text. A ring of under four positions has
/// fewer than three segments, which is told before, by 47 and rule 2: so 48 is met for the other two.
pub fn map(file: &[u8], zone: u32) -> Result<String, Refusal> {
    let told = |code| Refusal::of_code(code).map_err(|refusal| refusal.with_rule_of(file));
    let mut text = room(AT_FIRST)?;
    let mut answer = told(sys::map(file, zone, &mut text));
    if answer.is_err_and(|refusal| refusal.number() == NO_ROOM) {
        text = room(told(sys::map_length(file, zone))?)?;
        answer = told(sys::map(file, zone, &mut text));
    }
    text.truncate(answer?);
    // It is ASCII. Looking again is cheap, and needs no `unsafe`.
    Ok(String::from_utf8_lossy(&text).into_owned())
}

#[cfg(test)]
mod tests {
    use super::*;

    fn sample() -> Vec<u8> {
        std::fs::read("../sample/real-ne.tzb").unwrap()
    }

    /// The text goes into the first bytes of the room, and what lies behind stays.
    #[test]
    fn what_lies_behind_the_text_stays() {
        let file = sample();
        let text = map(&file, 126).unwrap();
        let length = text.len();
        assert_eq!(sys::map_length(&file, 126), length as i64);
        for more in [0, 1, 1000] {
            let mut room = vec![0xee; length + more];
            assert_eq!(sys::map(&file, 126, &mut room), length as i64);
            assert_eq!(&room[..length], text.as_bytes());
            assert!(room[length..].iter().all(|&byte| byte == 0xee), "{more}");
        }
    }

    /// On either side of the room that is lent at first.
    #[test]
    fn a_long_map_comes_whole() {
        let file = sample();
        for zone in [7, 126] {
            let text = map(&file, zone).unwrap();
            assert_eq!(text.len() as i64, sys::map_length(&file, zone));
            assert_eq!(text.len() > AT_FIRST, zone == 7);
            assert!(text.ends_with("]]]]}"));
        }
    }

    #[test]
    fn a_refusal_changes_nothing() {
        let file = sample();
        let length = sys::map_length(&file, 126) as usize;
        let too_short = [0, 1, 38, length - 1].map(|room| (126, room, -1046));
        let others = [(481, 1 << 20, -1045), (481, 0, -1045), (82, 1 << 20, -1048), (82, 0, -1048)];
        for (zone, room, code) in too_short.into_iter().chain(others) {
            let mut room = vec![0xee; room];
            assert_eq!(sys::map(&file, zone, &mut room), code, "zone {zone}");
            assert!(room.iter().all(|&byte| byte == 0xee), "zone {zone}");
        }
        assert_eq!([481, 82].map(|zone| sys::map_length(&file, zone)), [-1045, -1048]);
    }
}
