//! The text that the listing program writes for a film (01, "Checked by hand").

use crate::film::{self, Lent, State, Stepped};
use crate::palette;
use crate::sound::NO_STREAM;

/// Bytes of the longest film that is listed.
pub const MAX_FILM: usize = 24_576;
/// Pixels of each lent picture, and so of the largest frame that is listed.
pub const MAX_PIXELS: usize = 16_384;
/// Stores allowed to a step: those of the largest frame there is.
pub const STORES_A_STEP: usize = 312_000;

const HEADING: &str = "at type version length\n";
const TOO_LARGE: &str = "too large\n";

/// Lists a film: a heading, a line for each opcode taken, then how it ended. No stream is chosen
/// (02, W5).
pub fn list(film: &[u8]) -> String {
    if film.len() > MAX_FILM {
        return TOO_LARGE.to_string();
    }
    let lines = match film::open(film, NO_STREAM) {
        Ok(state) => lines(film, state),
        Err(refusal) => format!("refused {} 0\n", refusal.number),
    };
    HEADING.to_string() + &lines
}

/// The lines behind the heading. Pictures and palette are zero at first; those of words are empty (02, W7).
fn lines(film: &[u8], opened: State) -> String {
    let (mut palette, mut place) = (vec![0; palette::LENGTH], 0);
    let (mut a, mut b) = (vec![0; MAX_PIXELS], vec![0; MAX_PIXELS]);
    let mut lines = String::new();
    let mut state = opened;
    loop {
        let lent = Lent {
            palette: &mut palette,
            picture_a: &mut a,
            picture_b: &mut b,
            place: &mut place,
            room: &mut [],
            words: Default::default(),
        };
        match film::step(film, state, lent, STORES_A_STEP) {
            Stepped::Taken(after, ..) | Stepped::Whole(after, ..) => {
                lines += &opcode_line(film, &state);
                if after.pixels() > MAX_PIXELS {
                    return lines + TOO_LARGE;
                }
                state = after;
            }
            // Not met: no step has more stores than it is allowed.
            Stepped::Unfinished(same, ..) => state = same,
            Stepped::Ended(_) => return lines + &format!("ended {}\n", film.len()),
            Stepped::Refused(refusal) => {
                return lines + &format!("refused {} {}\n", refusal.number, state.position);
            }
        }
    }
}

/// The line of the opcode that a step takes in this state; at a chunk head there is none.
fn opcode_line(film: &[u8], state: &State) -> String {
    match film::opcode_head(film, state.position, state.chunk_end) {
        Ok(head) => {
            format!("{} {} {} {}\n", state.position, head.kind, head.version, head.body.length)
        }
        Err(_) => String::new(),
    }
}
