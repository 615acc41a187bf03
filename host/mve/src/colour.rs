//! Colours as displays take them.

/// A component of the palette, 0 to 63, as 8 bits: the two high bits come again as the low ones, so that
/// 0 is 0 and 63 is 255. It is C's `mve_widened`. What is above 63 counts as 63.
///
/// ```
/// assert_eq!([0, 1, 15, 16, 32, 63].map(mve::widened), [0, 4, 60, 65, 130, 255]);
/// ```
pub const fn widened(component: u8) -> u8 {
    let component = if component > 63 { 63 } else { component };
    component << 2 | component >> 4
}

/// A component of a word, 0 to 31, as 8 bits: the three high bits come again as the low ones, so that 0 is 0
/// and 31 is 255. It is C's `mve_widened_5`. What is above 31 counts as 31.
///
/// ```
/// assert_eq!([0, 1, 3, 4, 16, 31].map(mve::widened_5), [0, 8, 24, 33, 132, 255]);
/// ```
pub const fn widened_5(component: u8) -> u8 {
    let component = if component > 31 { 31 } else { component };
    component << 3 | component >> 2
}

/// Red, green and blue of a pixel with true colour, 8 bits each. The word has red in bits 10 to 14, green in 5
/// to 9 and blue in 0 to 4; bit 15 says nothing.
///
/// ```
/// assert_eq!(mve::word_colour(0x7C10), [255, 0, 132]);
/// assert_eq!(mve::word_colour(0xFC10), [255, 0, 132]);
/// ```
pub fn word_colour(word: u16) -> [u8; 3] {
    [word >> 10, word >> 5, word].map(|component| widened_5((component % 32) as u8))
}

/// Red, green and blue of a palette's entry, 8 bits each; black where the palette is too short.
///
/// ```
/// let mut palette = [0; mve::PALETTE_BYTES];
/// palette[6..9].copy_from_slice(&[63, 0, 32]);
/// assert_eq!(mve::colour(&palette, 2), [255, 0, 130]);
/// assert_eq!(mve::colour(&[], 2), [0; 3]);
/// ```
pub fn colour(palette: &[u8], entry: u8) -> [u8; 3] {
    let entry = palette.get(3 * usize::from(entry)..).and_then(<[u8]>::first_chunk);
    entry.map_or([0; 3], |components| components.map(widened))
}
