//! The chain from a pixel to where its value comes from: picture by picture, copy by copy.

use crate::drawings::Drawing;
use mve::{Refusal, Traced};
use std::fmt;

/// A pixel, and what gave it its value.
#[derive(Clone, Copy, Debug)]
pub struct Link<'a> {
    pub drawing: Drawing<'a>,
    pub x: usize,
    pub y: usize,
    pub traced: Traced,
    pub origin: Origin,
}

/// What gave a pixel its value, in the film.
#[derive(Clone, Copy, Debug, PartialEq, Eq)]
pub enum Origin {
    /// A byte of the film, and which of its packet it is.
    Byte { film: usize, packet: usize },
    /// The pixel of the next link: of the same drawing, or of an earlier one, which may be for the same
    /// picture.
    Pixel { x: usize, y: usize, picture: usize, earlier: bool },
    /// A pixel of a picture that nothing was drawn on before.
    Lent { x: usize, y: usize },
}

/// The chain from a pixel of the last drawing on. Each link leads to an earlier block or an earlier
/// drawing, so it ends. 22 where the position lies outside.
pub fn chain<'a>(
    drawings: &[Drawing<'a>],
    position: (usize, usize),
) -> Result<Vec<Link<'a>>, Refusal> {
    let mut links = Vec::new();
    let mut blank = Vec::new();
    let (mut at, (mut x, mut y)) = (drawings.len().checked_sub(1), position);
    while let Some(number) = at {
        let drawing = drawings[number];
        blank.resize(drawing.pixels(), 0);
        let traced = drawing.traced(&blank, x, y)?;
        let last_on = |on| last_on(&drawings[..number], on);
        let (next, from) = match traced.origin {
            mve::Origin::Byte(index) => {
                let origin = Origin::Byte { film: drawing.start + index, packet: index };
                links.push(Link { drawing, x, y, traced, origin });
                return Ok(links);
            }
            mve::Origin::New { x, y } => (at, (x, y)),
            mve::Origin::Back { x, y } => (last_on(drawing.on), (x, y)),
            mve::Origin::Front { x, y } => (last_on(1 - drawing.on), (x, y)),
        };
        let origin = match next {
            Some(next) => Origin::Pixel {
                x: from.0,
                y: from.1,
                picture: drawings[next].picture,
                earlier: next != number,
            },
            None => Origin::Lent { x: from.0, y: from.1 },
        };
        links.push(Link { drawing, x, y, traced, origin });
        (at, (x, y)) = (next, from);
    }
    Ok(links)
}

/// The last of some drawings on a picture in memory.
pub fn last_on(drawings: &[Drawing<'_>], on: usize) -> Option<usize> {
    drawings.iter().rposition(|drawing| drawing.on == on)
}

impl fmt::Display for Link<'_> {
    fn fmt(&self, f: &mut fmt::Formatter<'_>) -> fmt::Result {
        let Link { drawing, x, y, traced, origin } = self;
        let (picture, block, code) = (drawing.picture, traced.block, traced.code);
        write!(f, "{picture:>7} {x:>4} {y:>4} {block:>6}     {code:X}  ")?;
        let copied = if code == 1 { "kept" } else { "copied" };
        match *origin {
            Origin::Byte { film, packet } => {
                write!(f, "byte {film} of the film, byte {packet} of its packet")
            }
            Origin::Lent { x, y } => {
                write!(f, "{copied} from {x}, {y} of a picture as it was before the film")
            }
            Origin::Pixel { x, y, picture: of, earlier } => {
                write!(f, "{copied} from {x}, {y} of picture {of}")?;
                let is_same = of == picture && earlier;
                f.write_str(if is_same { " as it was drawn before" } else { "" })
            }
        }
    }
}
