//! One opening call: a film is opened and stepped until it has a size (02, W8).

use crate::film::{open, step, Lent, State, Stepped};
use crate::refusal::{self, Refusal};

/// Stores allowed to a step: more than any has (02, W11).
const STORES_A_STEP: usize = 312_000;
/// Bytes of a room that is always enough: a word counts the samples, of at most two bytes each.
const ROOM: usize = 2 * 0xFFFF;

/// Why a film was not begun, and where.
#[derive(Clone, Copy, Debug, PartialEq, Eq)]
pub struct Unbegun {
    /// The first refusal that the separate calls meet; 21 where the film ends without a size.
    pub refusal: Refusal,
    /// The state that the refused step was given; none where the header is refused.
    pub state: Option<State>,
}

/// Opens a film and steps until a size appears: the state just after opcode 05, with the palette and
/// the place as the steps leave them. A refusal leaves both as they were. Samples are dropped.
pub fn begin(
    film: &[u8],
    stream: usize,
    palette: &mut [u8],
    place: &mut usize,
) -> Result<State, Unbegun> {
    let mut state = open(film, stream).map_err(|refusal| Unbegun { refusal, state: None })?;
    let (mut new_palette, mut new_place, mut room) = (palette.to_vec(), *place, vec![0; ROOM]);
    while (state.columns, state.rows) == (0, 0) {
        let lent = Lent {
            palette: &mut new_palette,
            picture_a: &mut [],
            picture_b: &mut [],
            place: &mut new_place,
            room: &mut room,
            words: Default::default(),
        };
        let refusal = match step(film, state, lent, STORES_A_STEP) {
            Stepped::Taken(next, ..) | Stepped::Whole(next, ..) | Stepped::Unfinished(next, ..) => {
                state = next;
                continue;
            }
            Stepped::Ended(_) => Refusal::new(refusal::NO_SIZE),
            Stepped::Refused(refusal) => refusal,
        };
        return Err(Unbegun { refusal, state: Some(state) });
    }
    palette.copy_from_slice(&new_palette);
    *place = new_place;
    Ok(state)
}
