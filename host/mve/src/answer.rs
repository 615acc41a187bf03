//! The library's answers, which are numbers.

use crate::numbers::{kind, STATE, STATE_NUMBERS, STEPPED_NUMBERS};
use crate::{Error, Refusal, Rows, State};

/// The first numbers of every answer. The order of the fields is the library's, here and below.
#[repr(C)]
#[derive(Clone, Copy, Debug)]
pub(crate) struct Outcome {
    /// One of [`kind`].
    pub kind: usize,
    /// The number of a refusal, else 0.
    pub number: usize,
    /// The block that met a refusal, else 0.
    pub block: usize,
    /// Stores made.
    pub stores: usize,
}

/// The rows of blocks that a packet touches.
#[repr(C)]
#[derive(Clone, Copy, Debug)]
pub(crate) struct Touched {
    /// 0 where there is none, and then the rows are 0.
    pub touched: usize,
    pub first_row: usize,
    pub last_row: usize,
}

/// What a check or a drawing call answers.
#[repr(C)]
#[derive(Clone, Copy, Debug)]
pub(crate) struct Answer {
    pub outcome: Outcome,
    pub rows: Touched,
}

/// An answer that is not a refusal.
#[derive(Clone, Copy, Debug)]
pub(crate) struct Taken {
    /// One of [`kind`].
    pub kind: usize,
    pub stores: usize,
    pub rows: Option<Rows>,
}

/// What an opening or a step answers.
#[derive(Clone, Copy, Debug)]
pub(crate) struct Moved {
    /// What the call returned: the kind.
    returned: usize,
    outcome: Outcome,
    /// Bytes of samples written to the room's front.
    pub bytes: usize,
    rows: Touched,
    /// The state that comes back: of a refused step the one that went in, of a header that is
    /// refused zeros, of a film that is not begun the one that the refused step was given.
    state: [usize; STATE_NUMBERS],
}

impl Touched {
    /// The rows, if any; an outer none where the library does not give such numbers.
    fn read(self) -> Option<Option<Rows>> {
        match (self.touched, self.first_row, self.last_row) {
            (0, 0, 0) => Some(None),
            (1, first, last) if first <= last => Some(Some(Rows { first, last })),
            _ => None,
        }
    }
}

impl Outcome {
    /// What the numbers say; none where the library does not give such numbers. Only a check and a
    /// drawing have rows; of what is accepted or taken, only what has none makes stores.
    fn read(self, rows: Touched) -> Option<Result<Taken, Refusal>> {
        let Outcome { kind, number, block, stores } = self;
        let rows = rows.read()?;
        match (kind, number, block, stores, rows) {
            (kind::REFUSED, _, _, 0, None) => {
                Some(Err(Refusal { error: Error::from_number(number)?, block }))
            }
            (kind::TAKEN, 0, 0, 0, Some(_))
            | (kind::TAKEN, 0, 0, _, None)
            | (kind::WHOLE | kind::UNFINISHED, 0, 0, _, _)
            | (kind::ENDED, 0, 0, 0, None) => Some(Ok(Taken { kind, stores, rows })),
            _ => None,
        }
    }
}

impl Answer {
    /// The answer, if it is not a refusal.
    pub(crate) fn taken(self) -> Result<Taken, Refusal> {
        self.outcome.read(self.rows).unwrap_or_else(|| self.unknown())
    }

    /// The library is proved not to give such an answer: another version of it is linked.
    pub(crate) fn unknown(self) -> ! {
        panic!("libmve.a is not of the version that this crate is written for: {self:?}")
    }
}

impl Moved {
    /// What a call returned, and the numbers that it wrote.
    pub(crate) fn new(returned: usize, out: &[usize; STEPPED_NUMBERS]) -> Moved {
        let [kind, number, block, stores, bytes, touched, first_row, last_row, ..] = *out;
        let outcome = Outcome { kind, number, block, stores };
        let rows = Touched { touched, first_row, last_row };
        let mut state = [0; STATE_NUMBERS];
        state.copy_from_slice(&out[STATE]);
        Moved { returned, outcome, bytes, rows, state }
    }

    /// What the numbers say; none where the library does not give such numbers.
    fn read(&self) -> Option<Result<Taken, Refusal>> {
        let read = self.outcome.read(self.rows)?;
        (self.returned == self.outcome.kind).then_some(read)
    }

    /// The state and the answer, if it is not a refusal; `found` is the state that a refused call
    /// gives back.
    pub(crate) fn taken(self, found: State) -> Result<(State, Taken), Refusal> {
        match self.read() {
            Some(Err(refusal)) if self.state == found.numbers() && self.bytes == 0 => Err(refusal),
            Some(Ok(taken)) => Ok((self.state(), taken)),
            _ => self.unknown(),
        }
    }

    /// The state that comes back with the refusal, if it is one, of a film that is opened up to its
    /// size.
    pub(crate) fn begun(self) -> (State, Option<Refusal>) {
        let state = self.state();
        match self.read() {
            _ if self.bytes != 0 => self.unknown(),
            Some(Err(refusal)) => (state, Some(refusal)),
            Some(Ok(Taken { kind: kind::TAKEN, stores: 0, rows: None })) => (state, None),
            _ => self.unknown(),
        }
    }

    fn state(&self) -> State {
        State::from_numbers(&self.state).unwrap_or_else(|| self.unknown())
    }

    /// As [`Answer::unknown`].
    pub(crate) fn unknown(&self) -> ! {
        panic!("libmve.a is not of the version that this crate is written for: {self:?}")
    }
}

#[cfg(test)]
mod tests {
    use super::*;
    use crate::Sound;

    const NONE: Touched = Touched { touched: 0, first_row: 0, last_row: 0 };

    /// An answer is read, or it panics: the library that is linked is another one.
    fn read(outcome: Outcome, rows: Touched) -> Option<Result<Option<Rows>, Refusal>> {
        let answer = Answer { outcome, rows };
        std::panic::catch_unwind(|| answer.taken().map(|taken| taken.rows)).ok()
    }

    /// A number that is not in the table must not pass as one that is.
    #[test]
    fn refusals() {
        let refused = |number, stores| Outcome { kind: kind::REFUSED, number, block: 2, stores };
        assert_eq!(
            read(refused(13, 0), NONE),
            Some(Err(Refusal { error: Error::DataShort, block: 2 }))
        );
        for (number, stores) in [(0, 0), (27, 0), (256 + 13, 0), (13, 1)] {
            assert_eq!(read(refused(number, stores), NONE), None, "{number} after {stores} stores");
        }
    }

    /// Rows that no packet touches must not pass, and neither must those of a refusal or of an end.
    #[test]
    fn rows() {
        let of = |kind, number| Outcome { kind, number, block: 0, stores: 0 };
        let rows = |touched, first_row, last_row| Touched { touched, first_row, last_row };
        for kind in [kind::TAKEN, kind::WHOLE, kind::UNFINISHED] {
            assert_eq!(read(of(kind, 0), NONE), Some(Ok(None)));
            assert_eq!(
                read(of(kind, 0), rows(1, 0, 0)),
                Some(Ok(Some(Rows { first: 0, last: 0 })))
            );
            assert_eq!(
                read(of(kind, 0), rows(1, 3, 5)),
                Some(Ok(Some(Rows { first: 3, last: 5 })))
            );
            for wrong in [rows(1, 5, 3), rows(2, 3, 5), rows(0, 3, 5), rows(0, 0, 5)] {
                assert_eq!(read(of(kind, 0), wrong), None, "{wrong:?}");
            }
        }
        // A palette or a map makes stores and has no rows; a check has rows and makes none.
        let stored = |kind| Outcome { kind, number: 0, block: 0, stores: 9 };
        assert_eq!(read(stored(kind::TAKEN), NONE), Some(Ok(None)));
        assert_eq!(read(stored(kind::TAKEN), rows(1, 3, 5)), None);
        assert_eq!(read(stored(kind::ENDED), NONE), None);
        assert_eq!(read(of(kind::ENDED, 0), NONE), Some(Ok(None)));
        assert_eq!(read(of(kind::ENDED, 0), rows(1, 3, 5)), None);
        assert_eq!(read(of(kind::REFUSED, 15), rows(1, 3, 5)), None);
    }

    const FOUND: State = State {
        position: 1,
        chunk_end: 2,
        columns: 3,
        rows: 4,
        true_colour: true,
        front: 5,
        map: Some((6, 7)),
        unsent: true,
        sound: SOUND,
    };

    const SOUND: Sound = Sound {
        stream: 8,
        has_format: true,
        stereo: true,
        wide: false,
        compressed: true,
        begun: false,
        left: 9,
        right: 10,
    };

    /// An answer of these eight numbers, and a state.
    fn moved(returned: usize, first: [usize; 8], state: State) -> Moved {
        let mut out = [0; STEPPED_NUMBERS];
        out[..8].copy_from_slice(&first);
        out[STATE].copy_from_slice(&state.numbers());
        Moved::new(returned, &out)
    }

    /// Each number of an answer at its place.
    #[test]
    fn places() {
        let whole = moved(kind::WHOLE, [1, 0, 0, 12, 0, 1, 13, 14], FOUND);
        let (state, Taken { kind, stores, rows }) = whole.taken(FOUND).expect("no refusal");
        assert_eq!((state, kind, stores), (FOUND, kind::WHOLE, 12));
        assert_eq!((rows, whole.bytes), (Some(Rows { first: 13, last: 14 }), 0));
        let taken = moved(kind::TAKEN, [0, 0, 0, 0, 15, 0, 0, 0], FOUND);
        assert_eq!(taken.bytes, 15);
        let refused = moved(kind::REFUSED, [4, 13, 16, 0, 0, 0, 0, 0], FOUND);
        let refusal = Refusal { error: Error::DataShort, block: 16 };
        assert_eq!(refused.taken(FOUND).map(|_| ()), Err(refusal));
    }

    /// A call returns the first of the numbers that it writes.
    #[test]
    fn another_kind_returned() {
        for (returned, passes) in [(3, true), (0, false), (4, false), (usize::MAX, false)] {
            let ended = moved(returned, [3, 0, 0, 0, 0, 0, 0, 0], FOUND);
            let read = std::panic::catch_unwind(move || ended.taken(FOUND).map(|_| ()));
            assert_eq!(read.is_ok(), passes, "{returned}");
        }
    }

    /// A refused step that gives another state back, or has written, must not pass.
    #[test]
    fn refused_states() {
        let refused = |found, bytes| {
            let moved = moved(kind::REFUSED, [4, 16, 0, 0, bytes, 0, 0, 0], FOUND);
            std::panic::catch_unwind(move || moved.taken(found).map(|_| ()))
        };
        assert_eq!(refused(FOUND, 0).ok(), Some(Err(Refusal { error: Error::State, block: 0 })));
        assert!(refused(FOUND, 2).is_err());
        assert!(refused(State { position: 0, ..FOUND }, 0).is_err());
        let sound = Sound { right: 11, ..SOUND };
        assert!(refused(State { sound, ..FOUND }, 0).is_err());
    }
}
