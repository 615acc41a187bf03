//! The palette of a film that is made from pictures: their own colours, or a choice of them.

use crate::colours::narrowed;
use color_quant::NeuQuant;

/// Entries of a palette.
const ENTRIES: usize = 256;
/// Colours of 6 bits a component.
const COLOURS: usize = 1 << 18;
/// The quantizer is shown about so many pixels.
const SHOWN: u64 = 1 << 19;
/// It looks at each of them.
const EVERY: i32 = 1;

/// How many pixels have each colour.
pub struct Colours {
    counts: Vec<u64>,
}

/// A palette, and which entry stands for each colour.
pub struct Palette {
    pub entries: Vec<[u8; 3]>,
    /// How many colours the pictures have.
    pub colours: usize,
    /// The entry for each colour, where it was asked for before.
    found: Vec<Option<u8>>,
}

impl Colours {
    pub fn new() -> Colours {
        Colours { counts: vec![0; COLOURS] }
    }

    pub fn add(&mut self, pixels: &[[u8; 3]]) {
        for &pixel in pixels {
            self.counts[number(pixel)] += 1;
        }
    }

    /// All colours in order, where they have entries enough; else the choice of a quantizer.
    pub fn palette(&self) -> Palette {
        let own: Vec<_> = self.own().map(|(colour, _)| colour).collect();
        let colours = own.len();
        let entries = if colours <= ENTRIES { own } else { self.chosen() };
        Palette { entries, colours, found: vec![None; COLOURS] }
    }

    fn own(&self) -> impl Iterator<Item = ([u8; 3], u64)> + '_ {
        let counts = self.counts.iter().enumerate();
        counts.filter(|(_, &count)| count > 0).map(|(number, &count)| (colour(number), count))
    }

    /// Each colour is shown as often as the pictures have it, the rarest once.
    fn chosen(&self) -> Vec<[u8; 3]> {
        let all: u64 = self.counts.iter().sum();
        let mut pixels = Vec::new();
        for (colour, count) in self.own() {
            let [red, green, blue] = colour.map(mve::widened);
            let times = (count * SHOWN / all).max(1);
            (0..times).for_each(|_| pixels.extend([red, green, blue, 255]));
        }
        let chosen = NeuQuant::new(EVERY, ENTRIES, &pixels).color_map_rgb();
        let colours = chosen.chunks_exact(3).map(|part| narrowed([part[0], part[1], part[2]]).0);
        let mut colours: Vec<_> = colours.collect();
        colours.sort_unstable();
        colours.dedup();
        colours
    }
}

impl Palette {
    /// Whether a quantizer has chosen the entries.
    pub fn is_chosen(&self) -> bool {
        self.colours > ENTRIES
    }

    /// The entry that is nearest to a colour; of several the first.
    pub fn entry(&mut self, colour: [u8; 3]) -> u8 {
        let entries = &self.entries;
        let nearest = || {
            let far = |entry: &usize| distance(entries[*entry], colour);
            (0..entries.len()).min_by_key(far).unwrap_or(0) as u8
        };
        *self.found[number(colour)].get_or_insert_with(nearest)
    }
}

fn distance(one: [u8; 3], other: [u8; 3]) -> u32 {
    let parts = one.iter().zip(other);
    parts.map(|(&one, other)| u32::from(one.abs_diff(other)).pow(2)).sum()
}

/// The number of a colour, and the colour of a number.
fn number([red, green, blue]: [u8; 3]) -> usize {
    usize::from(red) << 12 | usize::from(green) << 6 | usize::from(blue)
}

fn colour(number: usize) -> [u8; 3] {
    [number >> 12, number >> 6 & 63, number & 63].map(|component| component as u8)
}

#[cfg(test)]
mod tests {
    use super::*;

    fn of(pixels: &[[u8; 3]]) -> Palette {
        let mut colours = Colours::new();
        colours.add(pixels);
        colours.palette()
    }

    #[test]
    fn numbers() {
        assert!((0..COLOURS).all(|at| number(colour(at)) == at));
    }

    /// 256 colours are kept, each with its entry; one more is too many.
    #[test]
    fn own_colours() {
        let pixels: Vec<_> = (0..256).map(|at| colour(at * 1021)).collect();
        let mut palette = of(&pixels);
        assert_eq!(
            (palette.entries.len(), palette.colours, palette.is_chosen()),
            (256, 256, false)
        );
        let entries: Vec<_> = pixels.iter().map(|&pixel| palette.entry(pixel)).collect();
        assert!(entries
            .iter()
            .zip(&pixels)
            .all(|(&at, pixel)| palette.entries[at as usize] == *pixel));
        let mut more = of(&[&pixels[..], &[[1, 1, 1]]].concat());
        assert_eq!((more.colours, more.is_chosen()), (257, true));
        assert!(more.entries.len() <= 256 && more.entries.is_sorted());
        let entry = usize::from(more.entry([1, 1, 1]));
        let far = |entry: usize| distance(more.entries[entry], [1, 1, 1]);
        assert!((0..more.entries.len()).all(|other| far(entry) <= far(other)));
    }

    /// Of many shades of few colours the choice is near to all.
    #[test]
    fn chosen_colours() {
        let pixels: Vec<_> = (0..20_000).map(|at| colour(at * 13 % COLOURS)).collect();
        let mut palette = of(&pixels);
        assert!(palette.is_chosen() && palette.entries.len() > 200);
        let entries: Vec<_> = pixels.iter().map(|&pixel| palette.entry(pixel)).collect();
        let far = |(&pixel, &entry): (_, &u8)| distance(palette.entries[usize::from(entry)], pixel);
        let sum: u32 = pixels.iter().zip(&entries).map(far).sum();
        // All colours in 256 cubes have sides of 64 / 6.35, and are off by 25 on average, as squares.
        assert!(sum / 20_000 <= 40, "{}", sum / 20_000);
    }
}
