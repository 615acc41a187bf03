//! Frames with true colour: those of one form of one code, and a mix in runs of blocks.

use crate::kind::PRIMERS;
use crate::libav;
use crate::measure::Bench;
use crate::program::{Program, ALL_STORES, CHECK, DRAW, MEMCPY, SECOND};
use maker::words::{WordBlock, WordDraft, WordForm};
use maker::{Packet, Seeded, Size};
use std::hint::black_box;

/// Frames that are timed of each kind.
const TIMED: usize = 4;

const LARGE: Size = Size { columns: 80, rows: 60 };
/// The first part of a packet has 65,533 bytes at most, because a word tells where it ends: larger frames hold
/// no more blocks of all codes, of codes 8 to A and C alone, and of B alone.
const MIDDLE: Size = Size { columns: 48, rows: 36 };
const SMALL: Size = Size { columns: 40, rows: 24 };
const LEAST: Size = Size { columns: 24, rows: 20 };

/// The mix, as the tables name it.
pub const MIX: &str = "mix";

/// Codes that paint every pixel without reading one, in few bytes.
const PAINTING: [u8; 3] = [0x7, 0xD, 0xE];

/// The forms by name, each with the size of its frames.
const FORMS: [(&str, Size); WordForm::ALL.len()] = [
    ("0", LARGE),
    ("1", LARGE),
    ("2", LARGE),
    ("3", LARGE),
    ("4", LARGE),
    ("5", LARGE),
    ("6", LARGE),
    ("7", LARGE),
    ("7-2x2", LARGE),
    ("8", SMALL),
    ("8-left-right", SMALL),
    ("8-top-bottom", SMALL),
    ("9", SMALL),
    ("9-2x2", SMALL),
    ("9-2-wide", SMALL),
    ("9-2-high", SMALL),
    ("A", SMALL),
    ("A-left-right", SMALL),
    ("A-top-bottom", SMALL),
    ("B", LEAST),
    ("C", SMALL),
    ("D", LARGE),
    ("E", LARGE),
    ("F", LARGE),
];

/// Frames of some forms.
pub struct Kind {
    /// As the tables name it.
    pub name: &'static str,
    /// The size.
    pub size: Size,
    forms: Vec<WordForm>,
}

/// Every kind.
pub fn kinds() -> Vec<Kind> {
    let forms = FORMS.iter().zip(WordForm::ALL);
    let mut kinds: Vec<Kind> =
        forms.map(|(&(name, size), form)| Kind { name, size, forms: vec![form] }).collect();
    kinds.push(Kind { name: MIX, size: MIDDLE, forms: WordForm::ALL.into() });
    kinds
}

/// Every kind, with its programs.
pub fn all(seed: u64) -> Result<Vec<Bench>, String> {
    kinds().iter().map(|kind| bench(kind, seed)).collect()
}

/// The packets of a kind's frames: the primers, then those that are timed.
pub fn frames(kind: &Kind, seed: u64) -> Vec<Packet> {
    let rng = &mut Seeded::new(seed);
    let painting: Vec<WordForm> =
        WordForm::ALL.into_iter().filter(|form| PAINTING.contains(&form.code)).collect();
    let forms = |number| if number < PRIMERS { &painting } else { &kind.forms };
    (0..PRIMERS + TIMED).map(|number| draft(rng, forms(number), kind.size).packet()).collect()
}

fn bench(kind: &Kind, seed: u64) -> Result<Bench, String> {
    let (frames, size) = (frames(kind, seed), kind.size);
    let mut second = Drawing::new(SECOND, draw_second, size, &frames);
    let mut wanted = Vec::new();
    for number in 0..frames.len() {
        second.run(number)?;
        wanted.push(second.picture().unwrap_or_default().to_vec());
    }
    Ok(Bench::of((kind.name, size), seed, wanted, programs(size, &frames)))
}

/// A packet of these forms; a block has, seven times of ten, the form of the block before it.
fn draft(rng: &mut Seeded, forms: &[WordForm], size: Size) -> WordDraft {
    let mut form = rng.pick(forms);
    let mut block = |number| -> WordBlock {
        if rng.below(10) >= 7 {
            form = rng.pick(forms);
        }
        // At an edge codes 2 and 3 may have no vector that stays inside: the block of code 0 or 1 instead.
        let of = |form: WordForm, rng: &mut Seeded| form.block(rng, size, number);
        of(form, rng).or_else(|| of(WordForm::ALL[0], rng)).expect("code 0 has no vector")
    };
    let blocks = (0..size.blocks()).map(&mut block).collect();
    WordDraft { size, blocks, spare: 0, over: Vec::new() }
}

/// Every program that is there, each with its own copies of the packets and its own pictures.
pub fn programs(size: Size, frames: &[Packet]) -> Vec<Box<dyn Program>> {
    let mut programs: Vec<Box<dyn Program>> = vec![
        Box::new(Memcpy([(); 2].map(|()| vec![0; size.pixels()]))),
        Box::new(Check(frames.to_vec())),
        Box::new(Drawing::new(DRAW, draw, size, frames)),
    ];
    programs.extend(libav::words(size, frames));
    programs.push(Box::new(Drawing::new(SECOND, draw_second, size, frames)));
    programs
}

/// A copy of a picture of words.
struct Memcpy([Vec<u16>; 2]);

impl Program for Memcpy {
    fn name(&self) -> &'static str {
        MEMCPY
    }

    fn run(&mut self, _number: usize) -> Result<(), String> {
        let [front, back] = &mut self.0;
        black_box(back).copy_from_slice(black_box(front));
        self.0.swap(0, 1);
        Ok(())
    }
}

struct Check(Vec<Packet>);

impl Program for Check {
    fn name(&self) -> &'static str {
        CHECK
    }

    fn run(&mut self, number: usize) -> Result<(), String> {
        let Packet { columns, rows, map, data } = &self.0[number];
        let checked = mve::check_words(*columns, *rows, map, data);
        checked.map(|_| ()).map_err(|refusal| refusal.to_string())
    }
}

/// Draws a packet: from the last picture and the oldest one on the new one; else why it is not taken.
type Draw = fn(&Packet, [&[u16]; 2], &mut [u16]) -> Result<(), String>;

fn draw(packet: &Packet, [last, oldest]: [&[u16]; 2], new: &mut [u16]) -> Result<(), String> {
    let Packet { columns, rows, map, data } = packet;
    match mve::draw_words(*columns, *rows, map, data, last, oldest, new, &mut 0, ALL_STORES) {
        Ok(mve::Drawn::Whole { .. }) => Ok(()),
        Ok(mve::Drawn::Unfinished { .. }) => Err("unfinished".to_owned()),
        Err(refusal) => Err(refusal.to_string()),
    }
}

fn draw_second(
    packet: &Packet,
    [last, oldest]: [&[u16]; 2],
    new: &mut [u16],
) -> Result<(), String> {
    let Packet { columns, rows, map, data } = packet;
    let mut place = 0;
    match reference::draw_words(
        *columns, *rows, map, data, last, oldest, new, &mut place, ALL_STORES,
    ) {
        Ok(drawn) if drawn.whole => Ok(()),
        other => Err(format!("{other:?}")),
    }
}

/// One of the decoders that draw on pictures that are lent to them.
struct Drawing {
    name: &'static str,
    draw: Draw,
    packets: Vec<Packet>,
    /// The last one, the one to be drawn on, the oldest one.
    pictures: [Vec<u16>; 3],
    /// The last one as bytes.
    bytes: Vec<u8>,
}

impl Drawing {
    fn new(name: &'static str, draw: Draw, size: Size, frames: &[Packet]) -> Drawing {
        let pictures = [(); 3].map(|()| vec![0; size.pixels()]);
        Drawing { name, draw, packets: frames.to_vec(), pictures, bytes: Vec::new() }
    }
}

impl Program for Drawing {
    fn name(&self) -> &'static str {
        self.name
    }

    fn run(&mut self, number: usize) -> Result<(), String> {
        let [last, new, oldest] = &mut self.pictures;
        (self.draw)(&self.packets[number], [last, oldest], new)?;
        self.pictures.rotate_left(1);
        Ok(())
    }

    fn picture(&mut self) -> Option<&[u8]> {
        self.bytes = self.pictures[0].iter().flat_map(|word| word.to_le_bytes()).collect();
        Some(&self.bytes)
    }
}

#[cfg(test)]
mod tests {
    use super::*;

    /// Every kind is taken and gives the same pictures round by round.
    #[test]
    fn every_kind() {
        for kind in kinds() {
            let small = Kind { size: Size::new(9, 7), ..kind };
            let mut bench = bench(&small, 3).expect("valid frames");
            (0..3).for_each(|round| bench.round(round).expect("programs that agree"));
        }
    }

    /// The name of a form begins with its code, and the frames of its size fit a packet of a film: its body has
    /// 65,531 bytes at most, 14 of which are skipped.
    #[test]
    fn sizes() {
        for (&(name, _), form) in FORMS.iter().zip(WordForm::ALL) {
            assert!(name.starts_with(&format!("{:X}", form.code)), "{name}");
        }
        for (kind, seed) in kinds().iter().flat_map(|kind| (0..3).map(move |seed| (kind, seed))) {
            for packet in frames(kind, seed) {
                assert!(packet.data.len() <= 65_517, "{}: {}", kind.name, packet.data.len());
            }
        }
    }
}
