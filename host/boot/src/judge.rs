//! Whether the pictures that the stage showed are those of the second decoder.

use crate::report::{messages, Kind, Picture, PALETTE};
use reference::begin::{begin, Unbegun};
use reference::film::{self, Lent, Stepped};
use reference::frame::{BLOCK_SIDE, MAX_PIXELS};
use reference::refusal::Refusal;
use reference::sound::NO_STREAM;
use std::ops::AddAssign;

/// Every packet is drawn by one step.
const STORES_A_STEP: usize = 312_000;

/// What the second decoder makes of a film.
#[derive(Clone, Debug)]
pub struct Expected {
    /// The pictures sent, in order.
    pub pictures: Vec<Picture>,
    /// Where the film ended or was refused.
    pub position: usize,
    /// The refusal, if it was refused.
    pub refusal: Option<Refusal>,
}

/// What is wrong with the pictures shown.
#[derive(Clone, Debug, PartialEq, Eq)]
pub enum Wrong {
    /// The picture of this number is not the film's, in its pixels or its colours.
    Differs(usize),
    /// After the picture of one number comes that of another.
    Order(Option<usize>, usize),
    /// So many pictures were sent, and no more.
    Missing(usize),
}

/// Counts of messages.
#[derive(Clone, Copy, Debug, Default, PartialEq, Eq)]
pub struct Tally {
    /// Pictures sent.
    pub sent: usize,
    /// Pictures sent once more, because a reset fell between sending and saving.
    pub twice: usize,
    /// Pictures shown again after a reset.
    pub again: usize,
    /// Messages that a reset cut.
    pub cut: usize,
}

impl AddAssign for Tally {
    fn add_assign(&mut self, other: Tally) {
        self.sent += other.sent;
        self.twice += other.twice;
        self.again += other.again;
        self.cut += other.cut;
    }
}

/// Plays a film by the second decoder.
pub fn expected(film: &[u8]) -> Expected {
    let (mut pictures, mut palette, mut place) = (Vec::new(), vec![0; PALETTE], 0);
    let mut state = match begin(film, NO_STREAM, &mut palette, &mut place) {
        Ok(state) => state,
        Err(Unbegun { refusal, state }) => {
            let position = state.map_or(0, |state| state.position);
            return Expected { pictures, position, refusal: Some(refusal) };
        }
    };
    let (mut a, mut b) = (vec![0; MAX_PIXELS], vec![0; MAX_PIXELS]);
    let refusal = loop {
        let lent = Lent {
            palette: &mut palette,
            picture_a: &mut a,
            picture_b: &mut b,
            place: &mut place,
            room: &mut [],
            words: [(); 3].map(|()| &mut [][..]), // the stage lends none
        };
        match film::step(film, state, lent, STORES_A_STEP) {
            Stepped::Taken(after, ..) => {
                if after.front != state.front {
                    pictures.push(Picture {
                        width: after.columns * BLOCK_SIDE,
                        height: after.rows * BLOCK_SIDE,
                        palette: palette.clone(),
                        pixels: film::shown(&after, &a, &b).to_vec(),
                    });
                }
                state = after;
            }
            Stepped::Whole(after, ..) | Stepped::Unfinished(after, ..) => state = after,
            Stepped::Ended(_) => break None,
            Stepped::Refused(refusal) => break Some(refusal),
        }
    };
    Expected { pictures, position: state.position, refusal }
}

/// Compares what the stage wrote to the port with these pictures: each is sent, in order, none but the
/// last one twice, and each is the film's whenever it is shown. After a reset the last picture whose
/// record was saved is shown again, and the next one is sent.
pub fn judge(port: &[u8], pictures: &[Picture]) -> Result<Tally, Wrong> {
    let (messages, cut) = messages(port);
    let mut tally = Tally { cut, ..Tally::default() };
    let (mut last, mut next) = (None, 0);
    for message in &messages {
        let number = message.number;
        if pictures.get(number) != Some(&message.picture) {
            return Err(Wrong::Differs(number));
        }
        match message.kind {
            Kind::Again if last == Some(number) || last == Some(number + 1) => {
                tally.again += 1;
                next = number + 1;
            }
            // before the first picture is saved as sent, there is none to be shown again
            Kind::Sent if number == next || (number == 0 && last == Some(0)) => {
                if last == Some(number) {
                    tally.twice += 1;
                } else {
                    tally.sent += 1;
                }
                (last, next) = (Some(number), number + 1);
            }
            _ => return Err(Wrong::Order(last, number)),
        }
    }
    match tally.sent == pictures.len() {
        true => Ok(tally),
        false => Err(Wrong::Missing(tally.sent)),
    }
}
