//! When to show a picture.

use crate::State;

/// The type of the opcode that sets the timer.
const TIMER: u8 = 0x02;

/// The microseconds from picture to picture, where the next step takes an opcode 0x02 that says so; else
/// none. It is C's `mve_timer`.
///
/// The library passes over opcode 0x02. Its body is a number of 32 bits, the rate of the timer in
/// microseconds, and a word, its subdivision: the rate times the subdivision is the time that each
/// picture stays, from here on to the next opcode 0x02. A time of 0 says nothing, and gives none. Give this
/// function the state that goes into a step, and remember what it gives. It reads the film alone, and is
/// not proved.
///
/// ```
/// // A chunk of one opcode 02: 8,341 microseconds times 8 are about 15 pictures a second.
/// let film = [
///     &b"Interplay MVE File\x1A\0\x1A\0\0\x01\x33\x11"[..],
///     &[10, 0, 2, 0, 6, 0, 0x02, 0, 0x95, 0x20, 0, 0, 8, 0],
/// ]
/// .concat();
/// let head = mve::open(&film, mve::NO_STREAM)?;
/// assert_eq!(mve::timer(&film, &head), None); // the head of the chunk
/// let opcode = mve::State { position: 30, chunk_end: 40, ..head };
/// assert_eq!(mve::timer(&film, &opcode), Some(66_728));
/// # Ok::<(), mve::Refusal>(())
/// ```
pub fn timer(film: &[u8], state: &State) -> Option<u64> {
    let rest = film.get(state.position..state.chunk_end)?;
    let &[low, high, TIMER, _version, ref body @ ..] = rest else { return None };
    let body = body.get(..usize::from(u16::from_le_bytes([low, high])))?;
    let &[a, b, c, d, e, f, ..] = body else { return None };
    let rate = u64::from(u32::from_le_bytes([a, b, c, d]));
    Some(rate * u64::from(u16::from_le_bytes([e, f]))).filter(|&microseconds| microseconds > 0)
}

#[cfg(test)]
mod tests {
    use super::*;
    use std::vec::Vec;

    /// A chunk's body, and where its opcode is.
    fn at(body: &[u8]) -> (Vec<u8>, State) {
        let film = [&[7; 9], body].concat();
        let state = State { position: 9, chunk_end: film.len(), ..State::default() };
        (film, state)
    }

    #[test]
    fn timers() {
        let largest = u64::from(u32::MAX) * 65_535;
        let cases: [(&[u8], Option<u64>); 8] = [
            (&[6, 0, 2, 0, 0, 0, 1, 0, 2, 0], Some(131_072)),
            (&[6, 0, 2, 9, 255, 255, 255, 255, 255, 255], Some(largest)),
            (&[7, 0, 2, 0, 1, 0, 0, 0, 1, 0, 9], Some(1)),
            (&[5, 0, 2, 0, 1, 0, 0, 0, 1, 0], None), // a body of 5 bytes
            (&[7, 0, 2, 0, 1, 0, 0, 0, 1, 0], None), // it passes its chunk
            (&[6, 0, 3, 0, 1, 0, 0, 0, 1, 0], None),
            (&[6, 0, 2, 0, 1, 0, 0, 0, 0, 0], None), // 0 microseconds
            (&[], None),
        ];
        for (body, expected) in cases {
            let (film, state) = at(body);
            assert_eq!(timer(&film, &state), expected, "{body:?}");
        }
    }

    /// States that no film gives are answered, too.
    #[test]
    fn wrong_states() {
        let (film, state) = at(&[6, 0, 2, 0, 1, 0, 0, 0, 1, 0]);
        for (position, chunk_end) in [(9, film.len() + 1), (20, 19), (usize::MAX, usize::MAX)] {
            assert_eq!(timer(&film, &State { position, chunk_end, ..state }), None);
        }
    }
}
