//! The pictures that a film is drawn on.

/// The pictures that a step is lent: two of bytes, for an 8-bit film, and three of words, for a film with
/// true colour. A film uses those of its own kind alone; the others stay as they are and may be empty.
///
/// A step refuses pictures of the film's kind that are shorter than the frame (8): 64 bytes, or words, for each
/// block. [`PICTURE_BYTES`](crate::PICTURE_BYTES) and [`PICTURE_WORDS`](crate::PICTURE_WORDS) are enough for
/// every film. [`State::true_colour`](crate::State::true_colour) tells the kind, once the size is known; before
/// that no picture is needed.
///
/// ```
/// use mve::Pictures;
///
/// let (mut a, mut b) = ([1; 64], [2; 64]);
/// let pictures = Pictures::bytes(&mut a, &mut b);
/// assert_eq!((pictures.b.len(), pictures.e.len()), (64, 0));
///
/// let (mut c, mut d, mut e) = ([3; 64], [4; 64], [5; 64]);
/// let pictures = Pictures::words(&mut c, &mut d, &mut e);
/// assert_eq!((pictures.b.len(), pictures.e.len()), (0, 64));
/// ```
#[derive(Debug, Default)]
pub struct Pictures<'m> {
    /// Of an 8-bit film: a byte a pixel. It is the shown one where [`State::front`](crate::State::front) is 0.
    pub a: &'m mut [u8],
    /// The other one of an 8-bit film, shown where front is 1.
    pub b: &'m mut [u8],
    /// Of a film with true colour: a word a pixel. It is the shown one where front is 0.
    pub c: &'m mut [u16],
    /// Shown where front is 1.
    pub d: &'m mut [u16],
    /// Shown where front is 2.
    pub e: &'m mut [u16],
}

impl<'m> Pictures<'m> {
    /// The pictures of an 8-bit film; those of words are empty.
    pub const fn bytes(a: &'m mut [u8], b: &'m mut [u8]) -> Self {
        Pictures { a, b, c: &mut [], d: &mut [], e: &mut [] }
    }

    /// The pictures of a film with true colour; those of bytes are empty.
    pub const fn words(c: &'m mut [u16], d: &'m mut [u16], e: &'m mut [u16]) -> Self {
        Pictures { a: &mut [], b: &mut [], c, d, e }
    }
}
