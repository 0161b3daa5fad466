//! Room for answers: memory that is lent to the reader to write into.

use crate::Refusal;
use crate::refusal::NO_ROOM;

/// So many places to write into. A file can ask for more than there is.
pub fn room<T: Clone + Default>(length: usize) -> Result<Vec<T>, Refusal> {
    let mut room = Vec::new();
    room.try_reserve_exact(length).map_err(|_| Refusal::new(NO_ROOM))?;
    room.resize(length, T::default());
    Ok(room)
}

/// Asks with room for `few`, and once more with room for `most` where refusal 46 says that it was too short. Where the
/// refusal can have a place, that is asked for with the same room.
pub fn into_room<T: Copy + Default>(
    few: usize,
    most: usize,
    ask: impl Fn(&mut [T]) -> i64,
    place: impl FnOnce(&[T]) -> i64,
) -> Result<Vec<T>, Refusal> {
    let mut room = vec![T::default(); few];
    let mut answer = Refusal::of_code(ask(&mut room));
    if answer.is_err_and(|refusal| refusal.number() == NO_ROOM) {
        room.resize(most, T::default());
        answer = Refusal::of_code(ask(&mut room));
    }
    let length = answer.map_err(|refusal| refusal.with_place(|| place(&room)))?;
    room.truncate(length);
    Ok(room)
}

#[cfg(test)]
mod tests {
    use super::*;

    #[test]
    fn more_than_there_is_of_memory_is_46() {
        assert_eq!(room(3), Ok(vec![0; 3]));
        assert_eq!(room::<u8>(usize::MAX), Err(Refusal::new(46)));
        assert_eq!(room::<u32>(usize::MAX / 4), Err(Refusal::new(46)));
    }

    /// Stands for a list of so many numbers: what an export does with the room that it is lent.
    fn list(length: usize) -> impl Fn(&mut [u32]) -> i64 {
        move |room| match room.get_mut(..length) {
            Some(places) => {
                places.iter_mut().zip(7..).for_each(|(place, n)| *place = n);
                length as i64
            }
            None => -1046,
        }
    }

    /// A place that is not to be asked for.
    fn nowhere(_: &[u32]) -> i64 {
        panic!("the refusal has no place")
    }

    #[test]
    fn room_grows_once() {
        assert_eq!(into_room(2, 5, list(0), nowhere), Ok(vec![]));
        assert_eq!(into_room(2, 5, list(2), nowhere), Ok(vec![7, 8]));
        assert_eq!(into_room(2, 5, list(3), nowhere), Ok(vec![7, 8, 9]));
        assert_eq!(into_room(2, 5, list(5), nowhere), Ok(vec![7, 8, 9, 10, 11]));
        assert_eq!(into_room(2, 5, list(6), nowhere), Err(Refusal::new(46)));
    }

    #[test]
    fn another_refusal_is_passed_on() {
        assert_eq!(into_room(2, 5, |_| -1034, nowhere), Err(Refusal::new(34)));
    }

    /// The place is asked for with the room of the call that was refused.
    #[test]
    fn a_refusal_with_a_place() {
        let place = |room: &[u32]| 100 + room.len() as i64;
        let at_once = into_room(2, 5, |_| -1039, place).unwrap_err();
        assert_eq!((at_once.number(), at_once.place()), (39, Some(102)));
        let after_46 = |room: &mut [u32]| if room.len() < 5 { -1046 } else { -1043 };
        let later = into_room(2, 5, after_46, place).unwrap_err();
        assert_eq!((later.number(), later.place()), (43, Some(105)));
    }
}
