//! The messages on the port (examples/boot/report.c): every picture that the stage showed, as the
//! display held it. A reset may cut a message; what follows it is found by its mark.

/// Bytes of a palette: 256 entries of red, green and blue.
pub const PALETTE: usize = 768;

const MARK: &[u8] = b"MVE>";
/// Bytes of kind, number, width and height.
const HEAD: usize = 9;
const SUM: usize = 4;

/// A picture with its colours.
#[derive(Clone, Debug, PartialEq, Eq)]
pub struct Picture {
    /// In pixels.
    pub width: usize,
    /// In pixels.
    pub height: usize,
    /// The colours, components 0 to 63.
    pub palette: Vec<u8>,
    /// The pixels, row by row.
    pub pixels: Vec<u8>,
}

/// Why a picture was shown.
#[derive(Clone, Copy, Debug, PartialEq, Eq)]
pub enum Kind {
    /// The film sent it.
    Sent,
    /// It was shown before the reset.
    Again,
}

/// A message: this picture was shown.
#[derive(Clone, Debug, PartialEq, Eq)]
pub struct Message {
    /// Why.
    pub kind: Kind,
    /// Which picture of the film, from 0 on.
    pub number: usize,
    /// The picture.
    pub picture: Picture,
}

/// The whole messages in the port's bytes, and how many were cut.
pub fn messages(port: &[u8]) -> (Vec<Message>, usize) {
    let (mut whole, mut cut, mut at) = (Vec::new(), 0, 0);
    while at < port.len() {
        match message(&port[at..]) {
            Some((message, bytes)) => {
                whole.push(message);
                at += bytes;
            }
            None => {
                cut += usize::from(port[at..].starts_with(MARK));
                at += 1;
            }
        }
    }
    (whole, cut)
}

/// The message that stands at the front, if it is whole, and its bytes.
fn message(port: &[u8]) -> Option<(Message, usize)> {
    let rest = port.strip_prefix(MARK)?;
    let number = |at: usize, bytes: usize| {
        let bytes = rest.get(at..at + bytes)?;
        Some(bytes.iter().rev().fold(0, |high, &byte| high << 8 | usize::from(byte)))
    };
    let kind = match rest.first()? {
        b'S' => Kind::Sent,
        b'A' => Kind::Again,
        _ => return None,
    };
    let (width, height) = (number(5, 2)?, number(7, 2)?);
    let end = HEAD + PALETTE + width * height;
    let summed = rest.get(..end)?;
    if number(end, SUM)? != sum(summed) {
        return None;
    }
    let (palette, pixels) = summed[HEAD..].split_at(PALETTE);
    let picture = Picture { width, height, palette: palette.to_vec(), pixels: pixels.to_vec() };
    Some((Message { kind, number: number(1, 4)?, picture }, MARK.len() + end + SUM))
}

/// FNV-1a of 32 bits.
fn sum(bytes: &[u8]) -> usize {
    let step = |sum: u32, &byte: &u8| (sum ^ u32::from(byte)).wrapping_mul(16_777_619);
    bytes.iter().fold(2_166_136_261, step) as usize
}
