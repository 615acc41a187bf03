//! Colours as other programs take them.

use mve::PALETTE_BYTES;

/// A palette of components of 8 bits, from one of 6 bits; see [`mve::widened`].
pub fn widened(palette: &[u8; PALETTE_BYTES]) -> [u8; PALETTE_BYTES] {
    palette.map(mve::widened)
}

/// A palette of at most 256 colours for words of 15 bits, components of 8 bits, with an entry for each word; and
/// whether it has just their colours, which stand in rising order. Else it is fixed: an entry has the three high
/// bits of red, then of green, then the two of blue, and what is lost is not dithered.
pub fn indexed(words: &[u16]) -> (Vec<u8>, [u8; PALETTE_BYTES], bool) {
    let mut colours: Vec<u16> = words.iter().map(|word| word % TRUE_COLOURS).collect();
    colours.sort_unstable();
    colours.dedup();
    let mut palette = [0; PALETTE_BYTES];
    let is_exact = colours.len() <= PALETTE_BYTES / 3;
    if is_exact {
        let entry = |word: u16| colours.partition_point(|&colour| colour < word % TRUE_COLOURS);
        let pixels = words.iter().map(|&word| entry(word) as u8).collect();
        for (entry, &colour) in palette.chunks_exact_mut(3).zip(&colours) {
            entry.copy_from_slice(&mve::word_colour(colour));
        }
        return (pixels, palette, true);
    }
    let pixels = words.iter().map(|&word| reduced(word)).collect();
    for (number, entry) in (0..=255).zip(palette.chunks_exact_mut(3)) {
        entry.copy_from_slice(&reduced_colour(number));
    }
    (pixels, palette, false)
}

/// How many colours words of 15 bits have.
const TRUE_COLOURS: u16 = 1 << 15;

/// The entry of a word in the fixed palette.
fn reduced(word: u16) -> u8 {
    (word >> 12 & 7) as u8 * 32 + (word >> 7 & 7) as u8 * 4 + (word >> 3 & 3) as u8
}

/// The colour of an entry in the fixed palette: from 0 to 255 in even steps, rounded down.
fn reduced_colour(entry: u8) -> [u8; 3] {
    let [red, green, blue] = [entry / 32, entry / 4 % 8, entry % 4].map(u32::from);
    [red * 255 / 7, green * 255 / 7, blue * 85].map(|component| component as u8)
}

/// What a component of 16 bits has for each one of 8.
const SIXTEEN: i32 = 257;

/// The component of 6 bits whose wide form is nearest to one of 16 bits, 0 to 65,535, or to a number
/// beyond; of two the lower. And how far it is.
pub fn narrow(component: i32) -> (u8, i32) {
    let guess = (component.clamp(0, 65_535) / (4 * SIXTEEN)) as u8; // it or the one below
    let wide = |narrow: u8| SIXTEEN * i32::from(mve::widened(narrow));
    let near = guess.saturating_sub(1)..=(guess + 1).min(63);
    let far = near.map(|narrow| (narrow, (wide(narrow) - component).abs()));
    far.min_by_key(|&(_, far)| far).unwrap_or_default()
}

/// A colour of 6 bits a component from one of 8 bits, and whether it is just that colour.
pub fn narrowed(colour: [u8; 3]) -> ([u8; 3], bool) {
    let parts = colour.map(|component| narrow(SIXTEEN * i32::from(component)));
    (parts.map(|(narrow, _)| narrow), parts.iter().all(|&(_, far)| far == 0))
}

/// Thousandths of what 255 of red, green and blue give of luma and of the differences (ITU-R BT.601).
const WEIGHTS: [[i32; 3]; 3] =
    [[65_481, 128_553, 24_966], [-37_797, -74_203, 112_000], [112_000, -93_786, -18_214]];
/// What black has of each.
const OFFSETS: [i32; 3] = [16, 128, 128];

/// Luma and colour differences in limited range: 16 to 235, and 16 to 240. Rounded to the nearest.
pub fn ycbcr(colour: [u8; 3]) -> [u8; 3] {
    std::array::from_fn(|part| {
        let weights = WEIGHTS[part].iter().zip(colour);
        let sum: i32 = weights.map(|(weight, component)| weight * i32::from(component)).sum();
        (OFFSETS[part] + (sum + 127_500).div_euclid(255_000)) as u8
    })
}

#[cfg(test)]
mod tests {
    use super::*;

    #[test]
    fn components() {
        let mut palette = [0; PALETTE_BYTES];
        palette[..6].copy_from_slice(&[0, 1, 15, 16, 32, 63]);
        let wide = widened(&palette);
        assert_eq!(wide[..6], [0, 4, 60, 65, 130, 255]);
        assert_eq!(wide[6..], [0; PALETTE_BYTES - 6]);
    }

    /// Narrow is wide turned round, and gives the nearest of the others.
    #[test]
    fn narrow_components() {
        for component in 0..64 {
            assert_eq!(narrowed([mve::widened(component); 3]), ([component; 3], true));
        }
        for component in 0..=255_u8 {
            let ([found, ..], exact) = narrowed([component; 3]);
            let far = |narrow: u8| mve::widened(narrow).abs_diff(component);
            assert!((0..64).all(|other| far(found) <= far(other)), "{component}");
            assert_eq!(exact, far(found) == 0, "{component}");
        }
        assert_eq!((narrow(-9).0, narrow(99_999).0), (0, 63));
    }

    /// Up to 256 colours are kept; more are reduced, black and white to themselves.
    #[test]
    fn palettes_of_words() {
        let few: Vec<u16> = (0..256).map(|number| 0x8000 + 127 * (255 - number)).collect();
        let (pixels, palette, is_exact) = indexed(&few);
        assert!(is_exact && pixels.iter().rev().copied().eq(0..=255));
        for (&word, &pixel) in few.iter().zip(&pixels) {
            assert_eq!(palette[3 * usize::from(pixel)..][..3], mve::word_colour(word));
        }
        let many: Vec<u16> = (0..TRUE_COLOURS).collect();
        let (pixels, palette, is_exact) = indexed(&many);
        assert!(!is_exact);
        for (word, &pixel) in (0..TRUE_COLOURS).zip(&pixels) {
            let colour = &palette[3 * usize::from(pixel)..][..3];
            let far = |part: usize| colour[part].abs_diff(mve::word_colour(word)[part]);
            assert!(far(0) < 37 && far(1) < 37 && far(2) < 86, "{word:04x}: {colour:?}");
        }
        assert_eq!((palette[..3].to_vec(), palette[765..].to_vec()), (vec![0; 3], vec![255; 3]));
        assert_eq!((pixels[0], pixels[0x7FFF], pixels[0x7C00], pixels[0x1F]), (0, 255, 0xE0, 3));
    }

    /// The colour bars of BT.601 at full brightness.
    #[test]
    fn bars() {
        let bars = [
            ([0, 0, 0], [16, 128, 128]),
            ([255, 255, 255], [235, 128, 128]),
            ([255, 0, 0], [81, 90, 240]),
            ([0, 255, 0], [145, 54, 34]),
            ([0, 0, 255], [41, 240, 110]),
            ([255, 255, 0], [210, 16, 146]),
            ([0, 255, 255], [170, 166, 16]),
            ([255, 0, 255], [106, 202, 222]),
        ];
        for (colour, expected) in bars {
            assert_eq!(ycbcr(colour), expected, "{colour:?}");
        }
    }
}
