//! The deadline board: which plug-in stops next.

use std::error::Error;
use std::fmt;

use crate::{raw, Record, Refusal};

/// The most places that the run of a [`Board`] may have.
///
/// ```
/// use seqtullo::{Board, Deadline, MAX_PLACES};
///
/// let mut run = [Deadline::default(); MAX_PLACES + 1];
/// assert_eq!(Board::new(&mut run[1..]).next(), Ok(None));
/// assert_eq!(Board::new(&mut run).next().unwrap_err().word(), "oversize");
/// ```
pub const MAX_PLACES: usize = 128;

/// The id of a plug-in, and when it is to stop: seconds from 1970-01-01 00:00:00 at offset 0, and the nanosecond after them. The default is three
/// zeros, as in a freed place.
#[repr(C)]
#[derive(Debug, Clone, Copy, Default, PartialEq, Eq, Hash)]
pub struct Deadline {
    pub id: u32,
    pub moment: i64,
    pub nanosecond: u32,
}

impl Deadline {
    /// The deadline of a plug-in that is to stop at a record.
    ///
    /// ```
    /// use seqtullo::{Deadline, Record};
    ///
    /// let end = Record::new(2024, 3, 13, 9, 30, 0, 500_000_000, -34200)?;
    /// assert_eq!(Deadline::at(7, end), Ok(Deadline { id: 7, moment: 1_710_356_400, nanosecond: 500_000_000 }));
    /// assert_eq!(Deadline::at(7, Record { month: 13, ..end }).unwrap_err().word(), "month");
    /// # Ok::<(), seqtullo::Refusal>(())
    /// ```
    pub fn at(id: u32, end: Record) -> Result<Deadline, Refusal> {
        Ok(Deadline { id, moment: end.unix_seconds()?, nanosecond: end.nanosecond })
    }
}

/// Why a call of a [`Board`] was refused: a number of the table of answers. It has no place.
///
/// ```
/// use seqtullo::{Board, Deadline, Refusal};
///
/// let mut run = [Deadline::default(); 2];
/// let refused = Board::with_count(&mut run, 2).next().unwrap_err();
/// assert_eq!((refused.number, refused.word()), (5, "packet"));
/// assert_eq!(refused.to_string(), "packet: two plug-ins have one id");
/// assert_eq!(Refusal::from(refused), Refusal { number: 5, place: 0 });
/// ```
#[derive(Debug, Clone, Copy, PartialEq, Eq, Hash)]
pub struct BoardRefusal {
    pub number: u32,
}

impl BoardRefusal {
    /// The word of the table of answers.
    pub fn word(self) -> &'static str {
        Refusal::from(self).word()
    }
}

impl From<BoardRefusal> for Refusal {
    fn from(refusal: BoardRefusal) -> Refusal {
        Refusal { number: refusal.number, place: 0 }
    }
}

impl fmt::Display for BoardRefusal {
    fn fmt(&self, f: &mut fmt::Formatter<'_>) -> fmt::Result {
        match self.number {
            5 => write!(f, "{}: two plug-ins have one id", self.word()),
            _ => f.write_str(self.word()),
        }
    }
}

impl Error for BoardRefusal {}

/// A board over a run of places that the host lends, at most [`MAX_PLACES`], and a count: the first `count` places have the plug-ins on the board,
/// and the others may contain anything.
///
/// The next to stop is the plug-in with the smallest moment, then the smallest nanosecond, then the smallest id. No plug-in leaves by itself: its
/// moment may be long past.
///
/// ```
/// use seqtullo::{Board, Deadline};
///
/// let mut run = [Deadline::default(); 3];
/// let mut board = Board::new(&mut run);
/// let late = Deadline { id: 7, moment: 1_710_356_400, nanosecond: 0 };
/// let soon = Deadline { id: 8, moment: 1_710_322_200, nanosecond: 0 };
/// assert_eq!(board.join(late), Ok(Some(late)));
/// assert_eq!(board.join(soon), Ok(Some(soon)));
/// assert_eq!(board.join(soon).unwrap_err().word(), "present");
/// assert_eq!(board.leave(8), Ok(Some(late)));
/// assert_eq!(board.leave(8).unwrap_err().word(), "absent");
/// assert_eq!(board.deadlines(), [late]);
/// assert_eq!(board.leave(7), Ok(None));
/// ```
///
/// A host that keeps the run makes a board where it needs one, and keeps the count.
///
/// ```
/// use seqtullo::{Board, BoardRefusal, Deadline, MAX_PLACES};
///
/// struct Host {
///     run: [Deadline; MAX_PLACES],
///     count: usize,
/// }
///
/// impl Host {
///     fn start(&mut self, plug_in: Deadline) -> Result<(), BoardRefusal> {
///         let mut board = Board::with_count(&mut self.run, self.count);
///         board.join(plug_in)?;
///         self.count = board.count();
///         Ok(())
///     }
/// }
///
/// let mut host = Host { run: [Deadline::default(); MAX_PLACES], count: 0 };
/// host.start(Deadline { id: 7, moment: 1_710_322_200, nanosecond: 0 })?;
/// assert_eq!(host.count, 1);
/// # Ok::<(), BoardRefusal>(())
/// ```
///
/// Every call tests the run and the count first: 1, `oversize`, if the run has more than [`MAX_PLACES`] places or fewer than the count; then 5,
/// `packet`, if two plug-ins on the board have one id. A refusal leaves the run and the count as they were.
#[derive(Debug)]
pub struct Board<'a> {
    run: &'a mut [Deadline],
    count: usize,
}

impl<'a> Board<'a> {
    /// An empty board. The places stay as they are; a plug-in that joins overwrites one.
    pub fn new(run: &'a mut [Deadline]) -> Board<'a> {
        Board::with_count(run, 0)
    }

    /// A board with the plug-ins of the first `count` places. Any count may be given: one above the places is refused by each call.
    ///
    /// ```
    /// use seqtullo::{Board, Deadline};
    ///
    /// let mut run = [Deadline { id: 7, moment: 1_710_322_200, nanosecond: 0 }];
    /// assert_eq!(Board::with_count(&mut run, 1).next()?.map(|d| d.id), Some(7));
    /// assert_eq!(Board::with_count(&mut run, 2).next().unwrap_err().word(), "oversize");
    /// # Ok::<(), seqtullo::BoardRefusal>(())
    /// ```
    pub fn with_count(run: &'a mut [Deadline], count: usize) -> Board<'a> {
        Board { run, count }
    }

    /// Puts a plug-in after the last one, and answers the next to stop, which may be this one. After the tests of every call it is refused with 16,
    /// `nanosecond`, if its nanosecond is above 999999999; 23, `present`, if its id is on the board already; 24, `full`, if all places are taken.
    pub fn join(&mut self, joining: Deadline) -> Result<Option<Deadline>, BoardRefusal> {
        // The pointer and the places are those of one slice, which is lent to this board alone.
        let answer = unsafe { raw::seqtullo_board_join(self.run.as_mut_ptr(), self.run.len(), self.count, joining) };
        self.changed(answer)
    }

    /// Takes the plug-in with this id out, and answers the next to stop. The later plug-ins move up by one place, and the place that this frees
    /// becomes zeros. After the tests of every call an id that is not on the board is refused with 25, `absent`.
    pub fn leave(&mut self, id: u32) -> Result<Option<Deadline>, BoardRefusal> {
        // The pointer and the places are those of one slice, which is lent to this board alone.
        let answer = unsafe { raw::seqtullo_board_leave(self.run.as_mut_ptr(), self.run.len(), self.count, id) };
        self.changed(answer)
    }

    /// The next to stop, or `None` if nobody is on the board.
    pub fn next(&self) -> Result<Option<Deadline>, BoardRefusal> {
        // The pointer and the places are those of one slice, which is only read.
        next_of(&unsafe { raw::seqtullo_board_next(self.run.as_ptr(), self.run.len(), self.count) })
    }

    /// The count: what the last accepted call answered, and before that the one that was given.
    pub fn count(&self) -> usize {
        self.count
    }

    /// The plug-ins on the board in the order in which they joined; empty if the count is above the places. Nothing else is tested: with more than
    /// [`MAX_PLACES`] places, or an id twice, these are the places as they are.
    pub fn deadlines(&self) -> &[Deadline] {
        self.run.get(..self.count).unwrap_or_default()
    }

    /// Keeps the new count of an accepted call.
    fn changed(&mut self, answer: raw::BoardAnswer) -> Result<Option<Deadline>, BoardRefusal> {
        let next = next_of(&answer)?;
        self.count = answer.count as usize;
        Ok(next)
    }
}

fn next_of(answer: &raw::BoardAnswer) -> Result<Option<Deadline>, BoardRefusal> {
    match answer.number {
        0 => Ok((answer.count > 0).then_some(answer.next)),
        number => Err(BoardRefusal { number }),
    }
}

#[cfg(test)]
mod tests {
    use super::*;

    fn at(id: u32, moment: i64) -> Deadline {
        Deadline { id, moment, nanosecond: 0 }
    }

    fn refused(number: u32) -> Result<Option<Deadline>, BoardRefusal> {
        Err(BoardRefusal { number })
    }

    #[test]
    fn fills_and_empties() {
        let mut run = [at(9, 9); MAX_PLACES];
        let mut board = Board::new(&mut run);
        assert_eq!(board.next(), Ok(None));
        for id in 0..128 {
            assert_eq!(board.join(at(id, -i64::from(id))), Ok(Some(at(id, -i64::from(id)))));
        }
        assert_eq!(board.count(), 128);
        assert_eq!(board.join(at(128, 0)), refused(24));
        assert_eq!(board.join(at(127, 0)), refused(23));
        for id in 0..127 {
            assert_eq!(board.leave(id), Ok(Some(at(127, -127))));
            assert_eq!(board.count(), 127 - id as usize);
            assert_eq!(board.deadlines()[0], at(id + 1, -i64::from(id + 1)));
        }
        assert_eq!(board.leave(127), Ok(None));
        assert_eq!(board.leave(127), refused(25));
        assert_eq!(board.deadlines(), []);
        assert_eq!(run, [Deadline::default(); MAX_PLACES]);
    }

    #[test]
    fn order() {
        let rest = [at(4, 0), at(3, i64::MIN), Deadline { nanosecond: 1, ..at(1, i64::MIN) }, at(2, i64::MIN), at(u32::MAX, i64::MIN), at(0, i64::MAX)];
        let mut run = rest;
        let mut board = Board::with_count(&mut run, 6);
        let mut order = Vec::new();
        while let Some(next) = board.next().unwrap() {
            order.push(next.id);
            board.leave(next.id).unwrap();
        }
        assert_eq!(order, [2, 3, u32::MAX, 1, 4, 0]);
    }

    #[test]
    fn places() {
        let mut run = [at(1, 5), at(2, 6), at(3, 7), at(4, 8), at(4, 8)];
        let mut board = Board::with_count(&mut run, 3);
        assert_eq!(board.leave(1), Ok(Some(at(2, 6))));
        assert_eq!(board.join(at(4, 1)), Ok(Some(at(4, 1))));
        assert_eq!(board.deadlines(), [at(2, 6), at(3, 7), at(4, 1)]);
        assert_eq!(board.leave(3), Ok(Some(at(4, 1))));
        assert_eq!(run, [at(2, 6), at(4, 1), at(0, 0), at(4, 8), at(4, 8)]);
    }

    /// A refusal leaves the run and the count.
    fn refuses(run: &[Deadline], count: usize, joining: Deadline, join: u32, leave: u32, next: Option<u32>) {
        let mut lent = run.to_vec();
        let mut board = Board::with_count(&mut lent, count);
        assert_eq!(board.join(joining), refused(join));
        assert_eq!(board.leave(joining.id), refused(leave));
        match next {
            Some(number) => assert_eq!(board.next(), refused(number)),
            None => assert!(board.next().is_ok()),
        }
        assert_eq!(board.count(), count);
        assert_eq!(board.deadlines(), run.get(..count).unwrap_or_default());
        assert_eq!(lent, run);
    }

    #[test]
    fn refusals() {
        let two = [at(1, 5), at(2, 6)];
        let twice = [at(1, 5), at(1, 6)];
        let spoilt = Deadline { nanosecond: 1_000_000_000, ..at(1, 0) };
        refuses(&[], 0, at(1, 0), 24, 25, None);
        refuses(&[], 1, spoilt, 1, 1, Some(1));
        refuses(&two, 3, spoilt, 1, 1, Some(1));
        refuses(&twice, usize::MAX, spoilt, 1, 1, Some(1));
        refuses(&[at(1, 5); 129], 2, spoilt, 1, 1, Some(1));
        refuses(&twice, 2, spoilt, 5, 5, Some(5));
        refuses(&two, 0, spoilt, 16, 25, None);
        refuses(&two, 2, at(3, 0), 24, 25, None);
        let mut run = two;
        assert_eq!(Board::with_count(&mut run, 2).join(spoilt), refused(16));
        assert_eq!(Board::with_count(&mut run, 2).join(at(2, 0)), refused(23));
        assert_eq!(run, two);
    }

    #[test]
    fn on_the_board_already() {
        let mut run = [Deadline { nanosecond: u32::MAX, ..at(1, 5) }, Deadline { nanosecond: 1_000_000_000, ..at(2, 5) }];
        assert_eq!(Board::with_count(&mut run, 2).next().unwrap().map(|d| d.id), Some(2));
        // An id after the count is on no board.
        let mut run = [at(1, 5), at(1, 6), at(2, 7)];
        let mut board = Board::with_count(&mut run, 1);
        assert_eq!(board.leave(2), refused(25));
        assert_eq!(board.join(at(2, 4)), Ok(Some(at(2, 4))));
        assert_eq!(run, [at(1, 5), at(2, 4), at(2, 7)]);
    }
}
