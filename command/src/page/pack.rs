//! Bytes as a page takes them: compressed by zlib, written in base 64.

use super::told::Told;
use crate::drawings::Drawing;
use flate2::write::ZlibEncoder;
use flate2::Compression;
use mve::{Origin, Traced};
use std::io::Write;

const DIGITS: &[u8; 64] = b"ABCDEFGHIJKLMNOPQRSTUVWXYZabcdefghijklmnopqrstuvwxyz0123456789+/";

/// A block that is not told has no code.
const NO_CODE: u8 = 0xFF;

/// What a pixel comes from, as the page's script has it. What is not told is 0.
const DATA: u8 = 1;
const FRONT: u8 = 2;
const BACK: u8 = 3;
const NEW: u8 = 4;

pub fn packed(bytes: &[u8]) -> String {
    let mut encoder = ZlibEncoder::new(Vec::new(), Compression::best());
    let compressed = encoder.write_all(bytes).and_then(|()| encoder.finish());
    base64(&compressed.unwrap_or_default()) // memory takes every write
}

/// The code of each block.
pub fn codes(told: &Told) -> Vec<u8> {
    let firsts = told.traced.iter().step_by(64);
    firsts.map(|first| first.map_or(NO_CODE, |traced| traced.code)).collect()
}

/// The origin of each pixel, block by block: what each comes from; then a number for each, all low
/// bytes first, then all middle, then all high ones. The number of a byte is counted from the one told
/// before, that of a pixel from the pixel itself: so they are small and alike.
pub fn origins(told: &Told, drawing: &Drawing<'_>) -> Vec<u8> {
    let mut planes: [Vec<u8>; 4] = Default::default();
    let mut byte = 0;
    for (at, traced) in told.traced.iter().enumerate() {
        let (kind, number) = origin(traced, drawing, at, &mut byte);
        let [low, middle, high, _] = number.to_le_bytes();
        for (plane, part) in planes.iter_mut().zip([kind, low, middle, high]) {
            plane.push(part);
        }
    }
    planes.concat()
}

/// A pixel's own, where it stands at this place of its blocks.
fn origin(
    traced: &Option<Traced>,
    drawing: &Drawing<'_>,
    at: usize,
    byte: &mut usize,
) -> (u8, i32) {
    let columns = drawing.size.0;
    let (block, inside) = (at / 64, at % 64);
    let own = (block / columns * 8 + inside / 8) * columns * 8 + block % columns * 8 + inside % 8;
    let from_own = |x, y| (y * columns * 8 + x) as i32 - own as i32;
    match traced.map(|traced| traced.origin) {
        None => (0, 0),
        Some(Origin::Byte(index)) => {
            let before = std::mem::replace(byte, index);
            (DATA, index as i32 - before as i32)
        }
        Some(Origin::Front { x, y }) => (FRONT, from_own(x, y)),
        Some(Origin::Back { x, y }) => (BACK, from_own(x, y)),
        Some(Origin::New { x, y }) => (NEW, from_own(x, y)),
    }
}

fn base64(bytes: &[u8]) -> String {
    let mut text = String::new();
    for three in bytes.chunks(3) {
        let [first, second, third] = std::array::from_fn(|n| three.get(n).copied().unwrap_or(0));
        let bits = u32::from_be_bytes([0, first, second, third]);
        for digit in 0..4 {
            let value = bits >> (18 - 6 * digit) & 0x3F;
            let is_padding = digit > three.len();
            text.push(if is_padding { '=' } else { DIGITS[value as usize].into() });
        }
    }
    text
}

#[cfg(test)]
mod tests {
    use super::*;

    /// The examples of RFC 4648, section 10, and the last digits.
    #[test]
    fn digits() {
        let examples = [
            ("", ""),
            ("f", "Zg=="),
            ("fo", "Zm8="),
            ("foo", "Zm9v"),
            ("foob", "Zm9vYg=="),
            ("fooba", "Zm9vYmE="),
            ("foobar", "Zm9vYmFy"),
        ];
        for (bytes, text) in examples {
            assert_eq!(base64(bytes.as_bytes()), text);
        }
        assert_eq!(base64(&[0xFB, 0xFF, 0xBF]), "+/+/");
    }
}
