//! The codes of blocks: what each means, its colour, and the legend of a picture of them.

use crate::canvas::{Canvas, Colour};

/// A code of a block.
pub struct Code {
    pub code: u8,
    pub meaning: &'static str,
    pub tint: Colour,
}

const fn code(code: u8, meaning: &'static str, tint: Colour) -> Code {
    Code { code, meaning, tint }
}

/// All codes that 8-bit films use. Blue: copied from the picture shown before. Grey and violet: from the
/// picture drawn on. Green to yellow: colours chosen by bits. Red to orange: a byte a pixel or a cell.
pub const CODES: [Code; 15] = [
    code(0x0, "the same block of the picture shown before", [40, 80, 200]),
    code(0x1, "kept as it was two pictures before", [110, 110, 110]),
    code(0x2, "copied from the picture drawn on, to the right or below", [170, 90, 220]),
    code(0x3, "copied from the new picture, to the left or above", [120, 30, 150]),
    code(0x4, "copied from the picture shown before, from nearby", [70, 160, 240]),
    code(0x5, "copied from the picture shown before, from anywhere near", [40, 200, 220]),
    code(0x7, "two colours", [0, 130, 60]),
    code(0x8, "two colours for each quarter or half", [60, 190, 60]),
    code(0x9, "four colours", [150, 200, 30]),
    code(0xA, "four colours for each quarter or half", [220, 220, 40]),
    code(0xB, "a byte for each pixel", [210, 20, 30]),
    code(0xC, "a byte for each 2x2", [230, 90, 40]),
    code(0xD, "a byte for each 4x4", [240, 140, 40]),
    code(0xE, "one colour", [250, 190, 120]),
    code(0xF, "two colours in turn, as on a chessboard", [240, 100, 160]),
];

/// The colour of a code; black for one that no film has.
fn tint(code: u8) -> Colour {
    CODES.iter().find(|known| known.code == code).map_or([0; 3], |known| known.tint)
}

/// The colour of a code, as bright as a colour is: from a quarter of it for black to all of it for white.
pub fn tinted(colour: Colour, code: u8) -> Colour {
    let weights = [299, 587, 114].into_iter().zip(colour);
    let luma: u32 = weights.map(|(weight, part)| weight * u32::from(part)).sum::<u32>() / 1000;
    tint(code).map(|part| (u32::from(part) * (255 + 3 * luma) / 1020) as u8)
}

fn count(codes: &[u8], code: u8) -> usize {
    codes.iter().filter(|&&other| other == code).count()
}

/// The codes that a picture has, in words, with how many blocks have each.
pub fn text(codes: &[u8]) -> String {
    let present = CODES.iter().map(|code| (code, count(codes, code.code)));
    let lines = present
        .filter(|(_, blocks)| *blocks > 0)
        .map(|(Code { code, meaning, .. }, blocks)| format!("{code:>4X} {blocks:>7}  {meaning}\n"));
    format!("CODE  BLOCKS  MEANING\n{}", lines.collect::<String>())
}

/// The digits, 5 pixels wide and 7 high: a row each, its left pixel in the highest of five bits.
const DIGITS: [[u8; 7]; 16] = [
    [0x0E, 0x11, 0x13, 0x15, 0x19, 0x11, 0x0E],
    [0x04, 0x0C, 0x04, 0x04, 0x04, 0x04, 0x0E],
    [0x0E, 0x11, 0x01, 0x02, 0x04, 0x08, 0x1F],
    [0x1F, 0x02, 0x04, 0x02, 0x01, 0x11, 0x0E],
    [0x02, 0x06, 0x0A, 0x12, 0x1F, 0x02, 0x02],
    [0x1F, 0x10, 0x1E, 0x01, 0x01, 0x11, 0x0E],
    [0x06, 0x08, 0x10, 0x1E, 0x11, 0x11, 0x0E],
    [0x1F, 0x01, 0x02, 0x04, 0x08, 0x08, 0x08],
    [0x0E, 0x11, 0x11, 0x0E, 0x11, 0x11, 0x0E],
    [0x0E, 0x11, 0x11, 0x0F, 0x01, 0x02, 0x0C],
    [0x0E, 0x11, 0x11, 0x1F, 0x11, 0x11, 0x11],
    [0x1E, 0x11, 0x11, 0x1E, 0x11, 0x11, 0x1E],
    [0x0E, 0x11, 0x10, 0x10, 0x10, 0x11, 0x0E],
    [0x1C, 0x12, 0x11, 0x11, 0x11, 0x12, 0x1C],
    [0x1F, 0x10, 0x10, 0x1E, 0x10, 0x10, 0x1F],
    [0x1F, 0x10, 0x10, 0x1E, 0x10, 0x10, 0x10],
];

/// A cell of the legend: a swatch with the code's digit, and the number of its blocks.
const CELL: (usize, usize) = (60, 20);
const SWATCH: usize = 16;
const CELLS_A_ROW: usize = 5;
const WHITE: Colour = [255; 3];
const FAINT: Colour = [90; 3];

/// The size of the legend.
pub const SIZE: (usize, usize) = (CELLS_A_ROW * CELL.0, CODES.len() / CELLS_A_ROW * CELL.1);

/// Paints the legend at x, y: every code in its colour, those that no block has with a faint 0.
pub fn paint(canvas: &mut Canvas, (x, y): (usize, usize), codes: &[u8]) {
    for (number, Code { code, tint, .. }) in CODES.iter().enumerate() {
        let left = x + number % CELLS_A_ROW * CELL.0 + 2;
        let top = y + number / CELLS_A_ROW * CELL.1 + 2;
        canvas.fill((left, top), (SWATCH, SWATCH), *tint);
        digit(canvas, (left + 5, top + 4), usize::from(*code), WHITE);
        let blocks = count(codes, *code);
        let colour = if blocks > 0 { WHITE } else { FAINT };
        for (place, character) in blocks.to_string().bytes().enumerate() {
            let at = (left + SWATCH + 4 + 6 * place, top + 4);
            digit(canvas, at, usize::from(character - b'0'), colour);
        }
    }
}

fn digit(canvas: &mut Canvas, (x, y): (usize, usize), digit: usize, colour: Colour) {
    for (row, bits) in DIGITS[digit].iter().enumerate() {
        for column in (0..5).filter(|column| bits & 0x10 >> column != 0) {
            canvas.put(x + column, y + row, colour);
        }
    }
}

#[cfg(test)]
mod tests {
    use super::*;
    use std::collections::BTreeSet;

    /// Every code but 6, each with a colour and a meaning of its own.
    #[test]
    fn codes() {
        let codes: Vec<u8> = CODES.iter().map(|code| code.code).collect();
        assert!(codes.iter().copied().eq((0..16).filter(|code| *code != 6)));
        let tints: BTreeSet<Colour> = CODES.iter().map(|code| code.tint).collect();
        let meanings: BTreeSet<&str> = CODES.iter().map(|code| code.meaning).collect();
        assert_eq!((tints.len(), meanings.len()), (15, 15));
        assert_eq!(DIGITS.iter().collect::<BTreeSet<_>>().len(), 16);
    }

    #[test]
    fn words() {
        let expected = "CODE  BLOCKS  MEANING\n   1       2  kept as it was two pictures before\n   E       1  one colour\n";
        assert_eq!(text(&[1, 0xE, 1]), expected);
    }
}
