//! Reports of a difference.

use reference::{CallForm, Rows};
use std::fmt;

/// What two accounts of one call differ in.
#[derive(Clone, Copy, Debug, PartialEq, Eq)]
pub enum Part {
    /// The answer: taken or refused, with its number and block, or its count and rows.
    Answer,
    /// The place after the call.
    Place,
    /// A byte of the shown picture.
    Front(usize),
    /// A byte of the picture drawn on.
    Back(usize),
    /// A byte of the picture drawn on that the call must leave: outside the rows that it tells, or any
    /// byte if the call is refused. Or a word of it.
    Kept(usize),
    /// A word of the last picture.
    Last(usize),
    /// A word of the oldest picture.
    Oldest(usize),
    /// A word of the new picture, which is drawn on.
    New(usize),
    /// The state of a film after a step.
    State,
    /// A byte of the palette.
    Palette(usize),
    /// A byte of the first lent picture.
    PictureA(usize),
    /// A byte of the second lent picture.
    PictureB(usize),
    /// A byte of the first lent picture that the step must leave: outside the rows that it tells, or
    /// any byte if it draws on the other picture, or not at all.
    KeptA(usize),
    /// The same of the second lent picture.
    KeptB(usize),
    /// A word of one of the three lent pictures of words.
    Words(usize, usize),
    /// A word of one of them that the step must leave.
    KeptWords(usize, usize),
    /// A byte of the room.
    Room(usize),
    /// The part of a lent picture that is shown.
    Shown,
    /// The part of a lent picture of words that is shown.
    ShownWords,
    /// The pictures that a film sends.
    Sent,
    /// The samples of a whole film.
    Samples,
    /// How a film ends.
    End,
}

impl fmt::Display for Part {
    fn fmt(&self, f: &mut fmt::Formatter<'_>) -> fmt::Result {
        match self {
            Part::Answer => write!(f, "answer"),
            Part::Place => write!(f, "place"),
            Part::Front(index) => write!(f, "byte {index} of front"),
            Part::Back(index) => write!(f, "byte {index} of back"),
            Part::Kept(index) => write!(f, "pixel {index} of back, which the call must leave"),
            Part::Last(index) => write!(f, "word {index} of the last picture"),
            Part::Oldest(index) => write!(f, "word {index} of the oldest picture"),
            Part::New(index) => write!(f, "word {index} of the new picture"),
            Part::State => write!(f, "state"),
            Part::Palette(index) => write!(f, "byte {index} of the palette"),
            Part::PictureA(index) => write!(f, "byte {index} of the first picture"),
            Part::PictureB(index) => write!(f, "byte {index} of the second picture"),
            Part::KeptA(index) => {
                write!(f, "byte {index} of the first picture, which the step must leave")
            }
            Part::KeptB(index) => {
                write!(f, "byte {index} of the second picture, which the step must leave")
            }
            Part::Words(picture, index) => {
                write!(f, "word {index} of picture {picture} of words")
            }
            Part::KeptWords(picture, index) => {
                write!(f, "word {index} of picture {picture} of words, which the step must leave")
            }
            Part::Room(index) => write!(f, "byte {index} of the room"),
            Part::Shown => write!(f, "shown picture"),
            Part::ShownWords => write!(f, "shown picture of words"),
            Part::Sent => write!(f, "pictures that are sent"),
            Part::Samples => write!(f, "samples of the film"),
            Part::End => write!(f, "end of the film"),
        }
    }
}

/// The first thing that two accounts of a case differ in.
#[derive(Clone, Debug, PartialEq, Eq)]
pub struct Difference {
    /// The number of the drawing call in its list, from 0; 0 for a check. Of a film, the number
    /// of the step, from 1; 0 for the opening.
    pub call: usize,
    /// The form of the call; of an opening, which has none, the default.
    pub form: CallForm,
    /// What differs.
    pub part: Part,
    /// Whose accounts these are, and what they say.
    pub accounts: [(&'static str, String); 2],
}

impl fmt::Display for Difference {
    fn fmt(&self, f: &mut fmt::Formatter<'_>) -> fmt::Result {
        let [(first, one), (second, other)] = &self.accounts;
        write!(f, "call {}", self.call)?;
        if self.form == CallForm::Strict {
            write!(f, ", strict form")?;
        }
        write!(f, ": {}: {first} {one}, {second} {other}", self.part)
    }
}

impl std::error::Error for Difference {}

/// The first index at which two pictures or palettes differ; they have one length.
pub(crate) fn first_difference<P: PartialEq>(one: &[P], other: &[P]) -> Option<usize> {
    assert_eq!(one.len(), other.len(), "pixels lent to one call");
    if one == other {
        return None;
    }
    one.iter().zip(other).position(|(a, b)| a != b)
}

/// The first index outside the rows at which two pictures of so many columns differ; anywhere where
/// there is no row.
pub(crate) fn difference_outside<P: PartialEq>(
    rows: Option<Rows>,
    columns: usize,
    one: &[P],
    other: &[P],
) -> Option<usize> {
    let pixels = |row: usize| (64 * columns * row).min(one.len());
    let (start, end) = rows.map_or((0, 0), |rows| (pixels(rows.first), pixels(rows.last + 1)));
    let behind = || first_difference(&one[end..], &other[end..]).map(|at| end + at);
    first_difference(&one[..start], &other[..start]).or_else(behind)
}
